# Reads refusals.txt and writes one part of a file (tools/tables/run), -v part: the version as C macros or as a line of Cargo.toml or Python, the refusals as C, Rust, Python, Markdown or man(7).
BEGIN {
  FS = " \\| "
  who["author"] = "the author of the label"
  who["sender"] = "the sender of the graphic"
  who["host"] = "the host"
  who["profile"] = "the author of the label, by the well-site profile alone"
  who["to_300"] = "the author of the label, in a conversion to 300 dots an inch alone"
  line = "the first byte of the refused line, its blanks included"
}
/^#/ { next }
NF != 6 || !($3 in who) || $1 !~ /^[0-9]+$/ || $1 <= number[n] || $1 > 255 || $2 !~ /^[A-Z][A-Za-z0-9]+( \([A-Z][A-Z0-9_]+\))?$/ || $5 ~ /["\\]/ { stop("no row: " $0) }
{ n++; number[n] = $1; split($2, names, /[ ()]+/); name[n] = names[1]; in_c[n] = names[2] != "" ? names[2] : constant(names[1]); by[n] = who[$3]; of_line[n] = $4 == "line"; place[n] = of_line[n] ? line : $4; words[n] = $5; when[n] = $6 }

function stop(why) { print FILENAME ": " why >"/dev/stderr"; failed = 1; exit 2 }

# TextFields as TEXT_FIELDS, Barcode2dType as BARCODE_2D_TYPE
function constant(s,    i, c, all) {
  for (i = 1; i <= length(s); i++) {
    c = substr(s, i, 1)
    all = all (i > 1 && c ~ /[A-Z0-9]/ ? "_" : "") c
  }
  return toupper(all)
}

function blanks(k,    all) { for (; k > 0; k--) all = all " "; return all }
function plain(s) { gsub(/`/, "", s); return s }
function capital(s) { return toupper(substr(s, 1, 1)) substr(s, 2) }

# The runs of numbers whose place is a line, each by first(a, b) of the language.
function runs(joint, one, many,    i, k, all) {
  for (i = 1; i <= n; i++) {
    if (!of_line[i]) continue
    for (k = i; k < n && of_line[k + 1] && number[k + 1] == number[k] + 1; k++);
    all = all (all == "" ? "" : joint) (k == i ? sprintf(one, number[i]) : sprintf(many, number[i], number[k]))
    i = k
  }
  return all
}

function header_version(    v) {
  split(version, v, ".")
  printf "#define LADDERTICK_VERSION \"%s\"\n", version
  printf "#define LADDERTICK_VERSION_MAJOR %d\n#define LADDERTICK_VERSION_MINOR %d\n#define LADDERTICK_VERSION_PATCH %d\n", v[1], v[2], v[3]
  printf "#define LADDERTICK_VERSION_NUMBER %d\n", 10000 * v[1] + 100 * v[2] + v[3]
}

function header_refusals(    i, c, most, group) {
  for (i = 1; i <= n; i++) if (length(in_c[i]) + length(number[i]) > most) most = length(in_c[i]) + length(number[i])
  print "enum {"
  for (i = 1; i <= n; i++) {
    if (by[i] "; " place[i] != group) {
      group = by[i] "; " place[i]
      printf "    /* %s; the place is %s: */\n", capital(by[i]), place[i]
    }
    c = in_c[i]
    printf "    LADDERTICK_%s = %d%s%s /* %s */\n", c, number[i], i < n ? "," : "", blanks(most - length(c) - length(number[i]) + (i == n)), plain(when[i])
  }
  print "};"
  print ""
  print "/* Whether the place of a refusal is the first byte of a line. */"
  printf "#define LADDERTICK_IS_OF_LINE(number) (%s)\n", runs(" || ", "(number) == %d", "((number) >= %d && (number) <= %d)")
}

function messages_refusals(    i) {
  print "#define LADDERTICK_MESSAGES(X) \\"
  for (i = 1; i <= n; i++) printf "    X(%d, \"%s\")%s\n", number[i], words[i], i < n ? " \\" : ""
}

function cargo_version() { printf "version = \"%s\"\n", version }

function rust_refusals(    i) {
  print "#[rustfmt::skip]"
  print "#[derive(Clone, Copy, Debug, PartialEq, Eq, Hash)]"
  print "#[non_exhaustive]"
  print "pub enum Refusal {"
  for (i = 1; i <= n; i++) {
    printf "    /// %d, %s: %s.", number[i], by[i], when[i]
    printf of_line[i] ? "\n" : " The place is %s.\n", place[i]
    printf "    %s = %d,\n", name[i], number[i]
  }
  print "}"
  print ""
  print "/// Each refusal with its words."
  print "#[rustfmt::skip]"
  print "const ALL: &[(Refusal, &str)] = &["
  for (i = 1; i <= n; i++) printf "    (Refusal::%s, \"%s\"),\n", name[i], words[i]
  print "];"
  print ""
  print "/// The place of the refusal with this number is the first byte of a line."
  print "pub(crate) fn is_of_line(number: u8) -> bool {"
  printf "    matches!(number, %s)\n", runs(" | ", "%d", "%d..=%d")
  print "}"
}

function python_version() { printf "VERSION = \"%s\"\n", version }

function python_refusals(    i) {
  print "@unique"
  print "class Refusal(IntEnum):"
  print "    \"\"\"Why a call is refused. Where nothing else is said, the place is " line ".\"\"\""
  print ""
  for (i = 1; i <= n; i++) {
    printf "    %s = %d\n", in_c[i], number[i]
    printf "    \"\"\"%s: %s.", capital(by[i]), when[i]
    printf of_line[i] ? "\"\"\"\n" : " The place is %s.\"\"\"\n", place[i]
  }
  print ""
  print ""
  print "def is_of_line(number: int) -> bool:"
  print "    \"\"\"Whether the place of the refusal with this number is the first byte of a line.\"\"\""
  printf "    return %s\n", runs(" or ", "number == %d", "%d <= number <= %d")
}

function page_refusals(    i) {
  print "| number | name | who | when | place |"
  print "|---|---|---|---|---|"
  for (i = 1; i <= n; i++) printf "| %d | %s | %s | %s | %s |\n", number[i], name[i], by[i], when[i], place[i] == place[i - 1] ? "the same" : place[i]
}

# Lines of at most 78 characters.
function folded(s,    w, k, i, line, all) {
  k = split(s, w, " ")
  for (i = 1; i <= k; i++) {
    if (line != "" && length(line) + 1 + length(w[i]) > 78) { all = all line "\n"; line = "" }
    line = line (line == "" ? "" : " ") w[i]
  }
  return all line "\n"
}

function man_refusals(    i) {
  for (i = 1; i <= n; i++) {
    printf ".TP\n.B %d LADDERTICK_%s\n%s", number[i], in_c[i], folded(capital(words[i]) ".")
    printf "%s", folded(capital(by[i]) (of_line[i] ? "" : "; the place is " place[i]) ".")
  }
}

END {
  if (failed) exit 2
  if (part == "header_version") header_version()
  else if (part == "header_refusals") header_refusals()
  else if (part == "messages_refusals") messages_refusals()
  else if (part == "cargo_version") cargo_version()
  else if (part == "rust_refusals") rust_refusals()
  else if (part == "python_version") python_version()
  else if (part == "python_refusals") python_refusals()
  else if (part == "page_refusals") page_refusals()
  else if (part == "man_refusals") man_refusals()
  else stop("no such part: " part)
}
