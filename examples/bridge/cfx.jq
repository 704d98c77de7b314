# An example: records in the shape of IPC's SDK for IPC-2591, as messages of a desk. The names of
# work are after that standard, and those of loads, splices and floor life are made up after them.
# Check each name and path against the text of the standard and against what your machine sends: no
# conformance is claimed.

# Each machine, the desk's name for it and its lanes; null passes a machine over. A desk has one
# board at a time in work on a machine. With one lane the first unit of a carrier is in work from
# the carrier's start to its completion. With two, each board is started and completed around its
# pieces: its start comes late, and can't hold the machine.
def machines: {
  "Vendor1.Model1.Machine34": {machine: "M1", lanes: 2},
  "Vendor1.Model1.Machine35": {machine: "M2", lanes: 1},
  "Vendor1.Oven1.Oven7": null};
def kinds: {
  "CFX.Production.WorkStarted": "WorkStarted",
  "CFX.Production.WorkCompleted": "WorkCompleted",
  "CFX.Production.Assembly.MaterialsInstalled": "MaterialsInstalled",
  "CFX.Materials.Storage.MaterialsLoaded": "MaterialsLoaded",
  "CFX.Materials.Storage.MaterialsSpliced": "MaterialsSpliced",
  "CFX.Materials.Storage.MaterialsUnloaded": "MaterialsUnloaded",
  "CFX.Materials.Management.MaterialsOpened": "ReelOpened",
  "CFX.Materials.Management.MaterialsSealed": "ReelSealed",
  "CFX.Materials.Management.MaterialsBaked": "ReelBaked"};

# A name: what is not there, or is no name, is told, and becomes no text "null".
def name($what): if type == "string" then . elif type == "number" then tostring
  elif . == null then error("\($what) is not there") else error("\($what) is no text") end;
def list($what): if type == "array" then . elif . == null then error("\($what) is not there")
  else error("\($what) is no list") end;
def said($m; $word; $more; $body):
  {MessageName: "TraceDesk.\($word)", UniqueID: (($m.UniqueID | name("UniqueID")) + $more),
   Source: ($m.Source | name("Source")), TimeStamp: ($m.TimeStamp | name("TimeStamp")),
   MessageBody: $body};

# Each unit with its pieces: a board of its own, CARRIER-1, CARRIER-2. MachineReels is the reel that
# the machine names.
def units: [.InstalledMaterials | list("InstalledMaterials")
    | group_by([.UnitIdentifier, .UnitPositionNumber // 1])[]
    | (.[0].UnitPositionNumber // 1) as $place
    | (.[0].UnitIdentifier | name("UnitIdentifier")) as $carrier
    | {$place, first: "\($carrier)-1",
       board: "\($carrier)-\($place | name("UnitPositionNumber"))",
       pieces: [.[] | .Material.UniqueIdentifier as $reel
         | .InstalledComponents | list("InstalledComponents")[]
         | {designator: (.ReferenceDesignator | name("ReferenceDesignator")), $reel}]}
    | select(.pieces != [])] | to_entries | map(.value + {more: "-\(.key + 1)"});
def placed($m; $machine; $unit; $more): said($m; "MaterialsInstalled"; $more;
    {Machine: $machine, Board: $unit.board, Designators: [$unit.pieces[].designator]}
    + if any($unit.pieces[]; .reel != null)
      then {MachineReels: [$unit.pieces[].reel]} else {} end);
def whole($m; $machine; $unit): {Machine: $machine, Board: $unit.board} as $at
  | said($m; "WorkStarted"; "\($unit.more)-s"; $at), placed($m; $machine; $unit; "\($unit.more)-i"),
    said($m; "WorkCompleted"; "\($unit.more)-c"; $at);
def installed($m; $machine; $lanes): ($m.MessageBody | units) as $all
  | [$all[] | select($lanes > 1 or .place != 1)] as $others
  | ($all[] | select($lanes == 1 and .place == 1) | placed($m; $machine; .; .more)),
    if $lanes > 1 then $others[] | whole($m; $machine; .)
    elif $others == [] then empty
    else said($m; "WorkCompleted"; "-c"; {Machine: $machine, Board: $others[0].first}),
      ($others[] | whole($m; $machine; .)),
      said($m; "WorkStarted"; "-s"; {Machine: $machine, Board: $others[0].first}) end;

def reels: .MessageBody.Materials | list("Materials") | to_entries[]
  | {more: "-\(.key + 1)", its: .value};
def its_machine: (.Source | name("Source")) as $source
  | if machines | has($source) then machines[$source]
    else error("\($source) is no machine of the filter") end;
def messages($word): . as $m | if $word | startswith("Reel") then
    reels | said($m; $word; .more; {Reel: (.its.UniqueIdentifier | name("UniqueIdentifier"))})
  else its_machine as $its | if $its == null then empty
    elif $word == "MaterialsInstalled" then installed($m; $its.machine; $its.lanes)
    elif $word | startswith("Materials") then reels | said($m; $word; .more;
      {Machine: $its.machine, Slot: (.its.LocationName | name("LocationName"))}
      + if $word == "MaterialsUnloaded" then {}
        else {Reel: (.its.MaterialPackage.UniqueIdentifier | name("UniqueIdentifier"))} end)
    elif $its.lanes > 1 then empty
    else said($m; $word; ""; {Machine: $its.machine,
      Board: "\(.MessageBody.PrimaryIdentifier | name("PrimaryIdentifier"))-1"}) end end;

# A record of another name is passed over. One that lacks a member is a dead letter; who looks at it
# sees what it was.
(.MessageName | name("MessageName")) as $name | kinds[$name] as $word | . as $m
| if $word == null then empty else try messages($word) catch error({why: ., message: {
    MessageName: "TraceDesk.\($word)",
    MessageBody: {Machine: ([$m.Source | strings | machines[.]][0] // {}).machine}}}) end
