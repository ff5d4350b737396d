# The lines of an enforced log become JSON, an object for each event, by
#     jq -cR -f objects.jq

# What a text of a log stands for. The bytes that JSON wants escaped and a log has as they are get their escapes first.
def text: "\"" + (.[1:-1] | gsub("(?<c>[\u0000-\u001f])"; .c | tojson[1:-1])) + "\"" | fromjson;

capture("^(?<kind>[@+])(?<time>[0-9]+)(?<events>.*);$") | . as $step
| .events | scan("(\\w+)\\(((?:[^()\"]|\"(?:[^\"\\\\]|\\\\.)*\")*)\\)")
| {
    time: ($step.time | tonumber),
    inserted: ($step.kind == "+"),
    name: .[0],
    args: [.[1] | scan("\"(?:[^\"\\\\]|\\\\.)*\"|-?[0-9]+") | if startswith("\"") then text else tonumber end]
  }
