# od -An -v -tu1 FILE | awk -f tools/input.awk: the bytes as a string literal of C, in one line: bytes that mean something in a literal, and those that are no
# printable ones, as octal escapes of three digits.
BEGIN {
  for (i = 0; i < 256; i++) written[i] = sprintf("\\%03o", i)
  for (i = 32; i < 127; i++) if (i != 34 && i != 63 && i != 92) written[i] = sprintf("%c", i)
  printf "\""
}
{
  text = ""
  for (i = 1; i <= NF; i++) text = text written[$i]
  printf "%s", text
}
END { printf "\"\n" }
