# An example: a log of a machine in CSV, a row an event, or a file of such rows for each board. Its
# columns and words are made up: Time;Event;Panel;Unit;Side;Designator;Slot;Reel;Next. Write your
# machine's in their place.

def machine: "M1";   # the desk's name of the machine, or of this module
def around: false;   # true: two lanes, panels, or a log without starts. Each board is started and
                     # completed around its pieces, so its start can't hold the machine
def sides: false;    # true: the side is a part of the board's name

def need($what): .[$what] // "" | if . == "" then error("\($what) is not there") else . end;
def board: need("Panel") + (if (.Unit // "") == "" then "" else "/\(.Unit)" end)
  + if sides then "-\(need("Side"))" else "" end;
def said($word; $more; $body): {MessageName: "TraceDesk.\($word)", UniqueID: "\($id)\($more)",
  Source: machine, TimeStamp: need("Time"), MessageBody: $body};
def at: {Machine: machine, Board: board};
def slot: {Machine: machine, Slot: need("Slot")};

# The pieces of one board. MachineReels is what the log says of their reels, so that a wrong one is
# noticed.
def placed($more): . as $rows | .[0] | said("MaterialsInstalled"; $more; at
  + {Designators: [$rows[] | need("Designator")]}
  + if any($rows[]; (.Reel // "") != "")
    then {MachineReels: [$rows[] | .Reel // "" | if . == "" then null else . end]} else {} end);
def whole($more): (.[0] | said("WorkStarted"; "\($more)-s"; at)), placed("\($more)-i"),
  (.[-1] | said("WorkCompleted"; "\($more)-c"; at));

# The end of a tape: the reel is off its slot and empty, so that the next one's pieces are its own.
def tape_ended: said("MaterialsUnloaded"; "-u"; slot),
  said("CountsTaken"; "-0"; {Counts: [{Reel: need("Reel"), Quantity: 0}]}),
  if (.Next // "") == "" then empty else said("MaterialsLoaded"; "-l"; slot + {Reel: .Next}) end;

def event: if .Event == "PLACE" then [.] | if around then whole("") else placed("") end
  elif .Event == "START" and (around | not) then said("WorkStarted"; ""; at)
  elif .Event == "END" and (around | not) then said("WorkCompleted"; ""; at)
  elif .Event == "LOAD" then said("MaterialsLoaded"; ""; slot + {Reel: need("Reel")})
  elif .Event == "SPLICE" then said("MaterialsSpliced"; ""; slot + {Reel: need("Reel")})
  elif .Event == "UNLOAD" then said("MaterialsUnloaded"; ""; slot)
  elif .Event == "OUT" then tape_ended
  elif .Event == "REJECT" then said("MaterialsScrapped"; ""; slot + {Quantity: 1})
  elif .Event == "START" or .Event == "END" or .Event == "BAD" or .Event == "REWORK" then empty
  else error("Event \(.Event) is none of this filter") end;

# Each record: a row, or the rows of a file. A unit with a bad mark has no pieces, so no message.
def of_pieces: .Event as $word | ["PLACE", "START", "END", "BAD", "REWORK"] | any(.[]; . == $word);
if .Rows == null then event
elif any(.Rows[]; of_pieces | not)
then error("a file of pieces has other events: take them from a log of rows")
else [.Rows[] | select(.Event == "PLACE")] | group_by(board) | to_entries[]
  | "-\(.key + 1)" as $more | .value | whole($more)
end
