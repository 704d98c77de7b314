-- A link from page to page leads to its HTML, in the same folder. One that leads out is left as its text.
local pages = os.getenv("PAGES")

function Link(link)
  local name, place = link.target:gsub("^%.%./", ""):gsub("^docs/", ""):match("^([%a-]+)%.md(#?.*)$")
  if name and (pages == "" or (" " .. pages .. " "):find(" " .. name .. " ", 1, true)) then
    link.target = name .. ".html" .. place
  elseif not link.target:find("^#") and not link.target:find("^%a+:") then
    return link.content
  end
  return link
end
