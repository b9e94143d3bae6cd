# awk -f tools/lines.awk -f tools/directives.awk FILE: ends with 0 where the file holds a preprocessing directive other than line markers.
BEGIN { found = 0 }
FNR == 1 { sub(/^\357\273\277/, "") }
is_marker($0) { next }
bare($0) ~ /^[ \t\v\f\r]*(#|%:)[ \t\v\f\r]*([^0-9 \t\v\f\r]|$)/ { found = 1; exit }
END { exit !found }
