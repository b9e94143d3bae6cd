"""For tools/spot: what the language leaves out that programs have, by the look of what is refused."""
import os
import re
from collections import Counter
from typing import Optional

from spot_text import tokens_of

# What a piece within a function, or a member, may hold that is refused.
INSIDE = [
    (rb"[{,]\s*\.\s*\w+\s*=|[{,]\s*\[[^\]]*\]\s*=", "designators in initializers are left out"),
    (rb"\b__func__\b", "__func__ is left out"),
    (rb"\bprintf\s*\(\s*[^\s\"]", "the format of printf is a string literal, and stands there itself"),
    (rb'\bprintf\s*\(\s*"[^"]*%(?!%|[duxcsp]|l[dux])', "printf has %d %u %x %c %s %p %ld %lu %lx %% without flags, width and precision"),
    (rb"\)\s*\{[^{}]*\}\s*[,;).\[]", "compound literals are left out"),
    (rb"\)\s*\.\s*\w+\s*\[", "a member of a returned structure that is an array can't be used: assign the structure to an object first"),
    (rb"^\s*(?:\{\s*)?(?:case\b[^?:]*|default\s*):", "case and default stand in the block of their switch itself, in no block within it"),
    (rb"\w\s*\[\s*[A-Za-z_]\w*[^\]]*\]\s*[;,=]", "an array's size is a constant: there are no arrays of variable length"),
    (rb"(?:int|unsigned|_Bool|char|long|short)\s+\w*\s*:\s*\w+\s*[;,]", "bit-fields are left out"),
    (rb"\[\s*\]\s*;", "an array without a size stands in a parameter, with an initializer, or where a later declaration has the size"),
    (rb"\b(?:extern|typedef)\b", "extern and typedef stand outside of functions alone"),
    (rb"^\s*(?!default\b)\w+\s*:(?!:)", "labels are left out, but for case and default"),
    (rb"=\s*\{\s*[^{}]*\}", "each inner array or structure has braces of its own, or the list is {0}"),
    (rb"\bswitch\s*\([^{]*\)\s*[^{\s]", "the body of a switch stands in braces"),
]

# What a declaration outside of functions may hold.
OUTSIDE = [
    (rb"[{,]\s*\.\s*\w+\s*=|[{,]\s*\[[^\]]*\]\s*=", "designators in initializers are left out"),
    (rb"\bmain\s*\(\s*[^)v\s]", "main has no parameters: int main(void)"),
    (rb"=.*\)\s*\{[^{}]*\}\s*[,;).\[]", "compound literals are left out"),
    (rb"\[\s*static\b", "[static ..] in parameters is left out"),
    (rb"(?:int|unsigned|_Bool|char|long|short)\s+\w*\s*:\s*\w+\s*[;,]", "bit-fields are left out"),
    (rb"\[\s*\]\s*;", "an array without a size stands in a parameter, with an initializer, or where a later declaration has the size"),
    (rb"\.\.\.", "only printf is declared with ..."),
    (rb"=\s*\{\s*[^{}]*\}", "each inner array or structure has braces of its own, or the list is {0}"),
]

# What is said of words of C17 that are left out, where more can be said than that.
WORDS = {
    "volatile": "--drop volatile takes the word away (it means something: each such access is to be made)",
    "restrict": "--drop restrict takes the word away (it means something: a promise that is then not looked at)",
    "float": "there are no floating-point numbers",
    "double": "there are no floating-point numbers",
    "inline": "the word is taken away where a source is preprocessed, and this one was not",
    "register": "the word is taken away where a source is preprocessed, and this one was not",
    "_Noreturn": "the word is taken away where a source is preprocessed, and this one was not",
    "L": "wide and Unicode literals are left out",
    "u": "wide and Unicode literals are left out",
    "U": "wide and Unicode literals are left out",
    "u8": "wide and Unicode literals are left out",
}

# What stands for such a word in a copy that is looked at further: another word, or the word goes with what stands after it.
STANDS_FOR = {b"float": b"int", b"double": b"int", b"_Alignof": b"sizeof"}
TO_SEMICOLON = (b"goto", b"_Static_assert")
TO_PARENTHESIS = {b"_Alignas": b"", b"_Generic": b"0"}

# The functions that the language has itself, with their types (C17 7.21.6.3, 7.22.3, 7.22.4, 7.24), which are fixed.
LIBRARY = {
    b"malloc": b"void *malloc(unsigned long);", b"calloc": b"void *calloc(unsigned long, unsigned long);", b"free": b"void free(void *);",
    b"realloc": b"void *realloc(void *, unsigned long);", b"exit": b"void exit(int);", b"abort": b"void abort(void);",
    b"memcpy": b"void *memcpy(void *, const void *, unsigned long);", b"memmove": b"void *memmove(void *, const void *, unsigned long);",
    b"memset": b"void *memset(void *, int, unsigned long);", b"memcmp": b"int memcmp(const void *, const void *, unsigned long);",
    b"strlen": b"unsigned long strlen(const char *);", b"strcmp": b"int strcmp(const char *, const char *);",
    b"strcpy": b"char *strcpy(char *, const char *);", b"printf": b"int printf(const char *, ...);",
}

# Functions of C17, and some of POSIX, that neither the language nor the headers have.
NOT_THERE = [
    ("gets sscanf vscanf vfscanf vsscanf read", "of the functions that read <stdio.h> has getchar, fgets, scanf and their like"),
    ("fopen freopen fclose tmpfile tmpnam remove rename fseek ftell rewind fgetpos fsetpos", "there are no files beside the three streams"),
    ("sprintf snprintf vprintf vfprintf vsprintf vsnprintf asprintf", "of the functions that write by a format there are printf and fprintf"),
    ("difftime strftime asctime ctime sleep usleep", "of <time.h> there is what can be had without a clock"),
    ("sin cos tan sqrt pow exp log floor ceil fabs fmod atof strtod strtof strtold", "there are no floating-point numbers"),
    ("setjmp longjmp system atexit at_quick_exit thrd_create mtx_lock pthread_create fork", "there are no jumps, threads or other programs"),
    ("strdup strndup strsep strtok_r getline alloca", "it is not of C17"),
]

# What the launcher says itself of attributes, assembly and pragmas that mean something.
TOLD_ELSEWHERE = re.compile(rb"\b(?:__attribute(?:__)?|__thread|_Pragma)\b|\b(?:asm|__asm(?:__)?)\b\s*(?:\(\s*\"|volatile|goto)")


def sentence_of(piece: bytes, is_inside: bool) -> str:
    """What the table says of a piece that is refused, or nothing."""
    if TOLD_ELSEWHERE.search(piece):
        return ""
    return next((sentence for pattern, sentence in (INSIDE if is_inside else OUTSIDE) if re.search(pattern, piece, re.S)), "")


def sentence_of_call(piece: bytes, source: bytes) -> str:
    """What is said of a function that a piece calls and the source doesn't declare."""
    for name in re.findall(rb"\b([A-Za-z_]\w*)\s*\(", piece):
        if declares(source, name):
            continue
        why = next((why for names, why in NOT_THERE if name.decode() in names.split()), "")
        header = "" if why else header_of(name)
        if why or header:
            return f"'{name.decode()}' is declared nowhere: {why or f'<{header}> has it'}"
    return ""


def header_of(name: bytes) -> str:
    """The header that has a function of this name, or nothing. What stands in files of the headers' own is of <stdio.h>."""
    headers = os.path.join(os.path.dirname(os.path.dirname(os.path.realpath(__file__))), "include")
    for header in sorted(os.listdir(headers)) if os.path.isdir(headers) else []:
        if header.endswith(".h"):
            with open(f"{headers}/{header}", "rb") as file:
                if re.search(rb"^(?!\s|/|#\s*if)[^\n]*\b%s\(" % name, file.read(), re.M):
                    return "stdio.h" if header.startswith("pv_") else header
    return ""


def declares(source: bytes, name: bytes) -> bool:
    """Whether a line of the source begins as a declaration of the function does: with a word before its name."""
    return bool(re.search(rb"^[ \t]*(?!return\b|else\b|case\b)\w[\w \t*]*[ \t*]%s[ \t]*\([^;{}]*\)[ \t\n]*[;{]" % name, source, re.M))


def undefined_functions(source: bytes) -> list[bytes]:
    """The functions that the source declares outside of all braces, has again somewhere, and defines nowhere, in the order of their declarations."""
    depth, outside, names = 0, b"", []
    for token in tokens_of(source):
        depth -= token.text == b"}"
        outside += b" " + (token.text if depth == 0 else b"")
        depth += token.text == b"{"
    for declared in re.finditer(rb"(\w+) \((?:[^;{}()]|\([^;{}()]*\))*\) ([;,{])", outside):
        names.append((declared[1], declared[2] == b"{"))
    defined = {name for name, is_defined in names if is_defined} | set(LIBRARY)
    used = Counter(token.text for token in tokens_of(source))
    return [name for name in dict.fromkeys(name for name, _ in names) if name not in defined and used[name] > 1]


def library_name(piece: bytes) -> Optional[bytes]:
    """The name of a library function that a declaration outside of functions declares or defines."""
    found = re.match(rb"\s*(?:\w+[\s*]+)+\**\s*(\w+)\s*\(", piece)
    return found[1] if found and found[1] in LIBRARY else None


def sentence_of_library(name: bytes, piece: bytes) -> str:
    if piece.rstrip().endswith(b"}"):
        return f"'{name.decode()}' is a function of the library, which has its body: give this one another name"
    return f"'{name.decode()}' is a function of the library, and its type is fixed: {LIBRARY[name].decode()}"


def sentence_of_typedef(piece: bytes, before: bytes) -> str:
    """What is said of a typedef outside of functions whose name is one already."""
    found = re.match(rb"\s*typedef\b.*?(\w+)\s*;\s*$", piece, re.S)
    if found and re.search(rb"\btypedef\b[^;{]*(\{[^}]*\}[^;]*)?\b%s\s*;" % found[1], before):
        return f"the typedef '{found[1].decode()}' stands once: the same again is taken only within one declaration"
    return ""
