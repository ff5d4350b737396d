# Events as JSON, an object on a line, become records of a log, by
#     jq -Rrn -f steps.jq --rawfile signature SIG --argjson latest TIME
# An object is {"time": T, "name": N, "args": [..]}, or {"time": T, "events": [..]} for a step of several events, or
# {"time": T} for a tick. A line that is none of these under the signature, or whose time is above `latest` or below that
# of a line before it, becomes no record: it is said on standard error, and the lines after it go on.

# The sorts of the columns of each event.
($signature | gsub("#[^\n]*"; "") | [scan("([A-Za-z_][A-Za-z0-9_]*)\\s*\\(([^)]*)\\)")]
    | map({key: .[0], value: [.[1] | scan("int|text")]}) | from_entries) as $events

| def whole: type == "number" and . == floor and fabs <= 9007199254740992;

def value($sort):
    if $sort == "int" and whole then . + 0 | tojson
    elif $sort == "text" and type == "string" and utf8bytelength <= 1024 then
        "\"" + (gsub("\\\\"; "\\\\") | gsub("\""; "\\\"") | gsub("\n"; "\\n") | gsub("\r"; "\\r") | gsub("\t"; "\\t")) + "\""
    else error("no \($sort): \(tojson)") end;

def event:
    if type == "object" and (.name | type) == "string" and (.args | type) == "array" then . else error("no event") end
    | .args as $args | $events[.name] as $sorts
    | if $sorts == null then error("unknown name")
      elif ($args | length) != ($sorts | length) then error("wrong number of args") else . end
    | "\(.name)(\([range($args | length) | . as $i | $args[$i] | value($sorts[$i])] | join(",")))";

def record($clock):
    if (.time | whole | not) or .time < 0 or .time > $latest then error("no time") else . end
    | if .time < $clock then error("time is below \($clock)") else . end
    | [if has("events") then .events[] else select(has("name")) end | event] as $step
    | if ($step | length) > 2048 then error("too many events") else . end
    | (.time + 0 | tojson) as $time
    | if has("events") or has("name") then "@" + $time + ($step | map(" " + .) | add // "") + ";" else ">" + $time + ";" end
    | if utf8bytelength > 65536 then error("too long") else . end;

foreach inputs as $line ({clock: 0};
    .clock as $clock
    | try ($line | fromjson | {clock: .time, record: record($clock)}) catch {clock: $clock, refused: .};
    if .record then .record else {refused, $line} | debug | empty end)
