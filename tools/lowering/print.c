enum { looked_at = 0, printed = 1, stored = 2, source = 77 };
static char digits[4200];
struct print {
  int mode, sources;
  char *to;
  unsigned long size, n;
  struct list given;
  char (*get)(const char *);
  const void *(*pointer)(const struct one *);
  void (*put)(char *, char);
  void (*overlap)(char *);
  void (*wrong)(void);
};
static void left_out(void) {
  printf("\n[--lower: a conversion that is left out]\n");
  abort();
}
static void meets(struct print *print, char *to) {
  for (int i = 0; i < print->given.at; i++)
    if (print->given.all[i].kind == source && print->given.all[i].p == to)
      print->overlap(to);
}
static void put(struct print *print, char letter) {
  if (print->mode == printed)
    printf("%c", letter);
  else if (print->mode == stored && print->n + 1 < print->size) {
    print->put(print->to + print->n, letter);
    if (print->sources)
      meets(print, print->to + print->n);
  }
  print->n++;
}
static void reads(struct print *print, const char *at) {
  if (print->mode != stored || print->size == 0)
    return;
  if (print->to == at)
    print->overlap(print->to);
  for (unsigned long k = 0; k < print->n && k + 1 < print->size; k++)
    if (print->to + k == at)
      print->overlap(print->to + k);
  print->given.all[print->given.at - 1].kind = source;
  print->sources = 1;
}
static const struct one *next_given(struct print *print, int kind) {
  if (print->given.at >= print->given.left || (print->given.all[print->given.at].kind + 1) / 2 != (kind + 1) / 2)
    print->wrong();
  return &print->given.all[print->given.at++];
}
static const char *amount(struct print *print, const char *at, int *amount) {
  int letter = print->get(at);
  *amount = 0;
  if (letter == '*') {
    *amount = (int)next_given(print, 1)->n;
    at++;
  } else
    for (; letter >= '0' && letter <= '9' && *amount <= 4095; letter = print->get(++at))
      *amount = *amount * 10 + (letter - '0');
  if (*amount > 4095)
    too_long();
  return at;
}
static const char *conversion(struct print *print, const char *at) {
  int flags = 0, flag = 1, width, precision = -1, length = 0, letter, kind;
  unsigned long value, count, k;
  const char *text;
  char *end = digits + sizeof digits - 1;
  const struct one *given;
  for (; flag; at++) {
    letter = print->get(at);
    flag = letter == '-' ? left : letter == '+' ? plus : letter == ' ' ? blank : letter == '#' ? other : letter == '0' ? zeros : 0;
    flags |= flag;
  }
  at = amount(print, at - 1, &width);
  if (width < -4095)
    too_long();
  if (flags & left && width > 0)
    width = -width;
  letter = print->get(at);
  if (letter == '.') {
    at = amount(print, at + 1, &precision);
    letter = print->get(at);
  }
  if (letter == 'h' || letter == 'l' || letter == 'j' || letter == 'z' || letter == 't') {
    length = letter == 'h' ? -1 : 1;
    at++;
    if ((letter == 'h' || letter == 'l') && print->get(at) == letter) {
      length *= 2;
      at++;
    }
    letter = print->get(at);
  }
  if (letter == 'd' || letter == 'i' || letter == 'u' || letter == 'o' || letter == 'x' || letter == 'X') {
    given = next_given(print, length <= 0 ? 1 : length == 1 ? 3 : 5);
    value = given->n;
    kind = given->kind;
    if (letter == 'd' || letter == 'i') {
      letter = 'd';
      if (flags & other)
        left_out();
      if (kind == 2 && value > 2147483647 || kind % 2 == 0 && value > 9223372036854775807)
        print->wrong();
      value = length == -1 ? (short)value : length == -2 ? (signed char)value : (long)value;
    } else {
      if (flags & (plus | blank) || flags & other && letter == 'u')
        left_out();
      if (length >= 0 && kind % 2 == 1 && (long)value < 0)
        print->wrong();
      value = length == -1 ? (unsigned short)value : length == -2 ? (unsigned char)value : value;
    }
    text = number(end, value, letter, flags, width, precision);
    count = end - text;
  } else if (letter == '%' && print->get(at - 1) == '%') {
    put(print, '%');
    return at;
  } else if (length || flags & ~left)
    left_out();
  else if (letter == 'c' && precision < 0) {
    given = next_given(print, 1);
    if (given->kind == 2 && given->n > 2147483647)
      print->wrong();
    digits[0] = (unsigned char)given->n;
    text = digits;
    count = 1;
  } else if (letter == 's') {
    given = next_given(print, 7);
    if (given->kind != 7)
      print->wrong();
    text = print->pointer(given);
    if (!text)
      print->get(text);
    for (count = 0; precision < 0 || count < (unsigned long)precision; count++) {
      reads(print, text + count);
      if (!print->get(text + count))
        break;
    }
  } else if (letter == 'p' && precision < 0) {
    given = next_given(print, 7);
    text = print->pointer(given);
    text = text ? number(end, (unsigned long)text, 'x', other, 0, -1) : "(nil)";
    for (count = 0; text[count]; count++)
      ;
  } else
    left_out();
  for (k = pad(width, count, 0) - blanks; k < sizeof blanks - 1; k++)
    put(print, ' ');
  for (k = 0; k < count; k++)
    put(print, text[k]);
  for (k = pad(width, count, 1) - blanks; k < sizeof blanks - 1; k++)
    put(print, ' ');
  return at;
}
static int print_list(struct print print, const char *format) {
  int first = print.given.at, last = print.mode, letter;
  const char *at;
  for (print.mode = last == printed ? looked_at : stored; print.mode <= last; print.mode++) {
    print.given.at = first;
    print.n = 0;
    for (at = format; (letter = print.get(at)); at++)
      if (letter == '%')
        at = conversion(&print, at + 1);
      else
        put(&print, letter);
  }
  if (last == stored && print.size) {
    at = print.to + (print.n < print.size ? print.n : print.size - 1);
    print.put((char *)at, 0);
    meets(&print, (char *)at);
  }
  return print.n;
}
