# Reads the structs that Rattle sources mark #[repr(C)] and writes, for C (-v to=c) or Rust (-v to=rust), assertions that the host's structs of the same
# meaning have the same fields and no other, each of its type and in its place; for Python (-v to=python) a table of them, which structs.py holds against the classes of ctypes.
# A struct without a name at the host's stands there field by field.
BEGIN {
  size["u8"] = 1; size["i32"] = 4; size["u32"] = 4; size["usize"] = 8; size["f64"] = 8
  if (to == "c") {
    host["FlatAnswer"] = "laddertick_answer"; host["Element"] = "laddertick_element"; host["WalkState"] = "laddertick_walk"; host["Written"] = "laddertick_written"
    host["Checked"] = "laddertick_checked"; host["LabelEntry"] = "laddertick_entry"
    host["Joined"] = "laddertick_joined"; host["Rectangle"] = "laddertick_rectangle"; host["Element300"] = "laddertick_element_300"; host["Label300"] = "laddertick_label"
    type["u8"] = "uint8_t"; type["i32"] = "int32_t"; type["u32"] = "uint32_t"; type["usize"] = "size_t"; type["f64"] = "double"
  } else {
    host["FlatAnswer"] = "Answer"; host["Element"] = "Element"; host["WalkState"] = "Walk"; host["Written"] = "Written"
    host["Checked"] = "Checked"; host["LabelEntry"] = "Entry"
    host["Joined"] = "Joined"; host["Rectangle"] = "Rectangle"; host["Element300"] = "Element300"; host["Label300"] = to == "python" ? "Label" : "Label300"
    for (t in size) type[t] = t
    if (to == "python") { type["u8"] = "c_uint8"; type["i32"] = "c_int32"; type["u32"] = "c_uint32"; type["usize"] = "c_size_t"; type["f64"] = "c_double" }
  }
  for (s in host) type[s] = host[s]
}

# ---- the declarations
/^#\[repr\(C\)\]$/ { marked = 1; next }
marked && /^#\[derive\(/ { next }
# a number in a type of its own, as which only Rust has it
marked && /^pub struct [A-Za-z0-9]+\(pub i32\);$/ { t = $3; sub(/\(.*/, "", t); size[t] = size["i32"]; type[t] = to == "rust" ? t : type["i32"]; marked = 0; next }
marked && /^pub struct [A-Za-z0-9]+ \{$/ { struct = $3; structs[struct] = ++declared; order[declared] = struct; marked = 0; next }
marked { stop("no struct behind #[repr(C)]") }
struct && /^}$/ { struct = ""; next }
struct && /^ *\/\// { next }
struct && /^    pub [a-z_0-9]+: [A-Za-z0-9]+,$/ {
  n = ++count[struct]
  name[struct, n] = substr($2, 1, length($2) - 1)
  of[struct, n] = substr($3, 1, length($3) - 1)
  next
}
struct { stop("no field: " $0) }

# ---- sizes and places: a field stands at the next multiple of its alignment, which is its size or its struct's largest
function laid(s,    i, t, at, most) {
  if (s in size) return
  for (i = 1; i <= count[s]; i++) {
    t = of[s, i]
    if (!(t in size) && !(t in structs)) stop(s "." name[s, i] ": no size is known of " t)
    laid(t)
    if (aligned(t) > most) most = aligned(t)
    at = up(at + 0, aligned(t))
    place[s, i] = at
    at += size[t]
  }
  align[s] = most
  size[s] = up(at, most)
}
function aligned(t) { return t in align ? align[t] : size[t] }
function up(n, by) { return int((n + by - 1) / by) * by }

# the host's fields of s: nested structs without a name there are gone through
function fields(s, base,    i, t) {
  for (i = 1; i <= count[s]; i++) {
    t = of[s, i]
    if (t in structs && !(t in host)) {
      nested[t] = 1
      fields(t, base + place[s, i])
    } else {
      k++
      f_name[k] = name[s, i]
      f_type[k] = t
      f_place[k] = base + place[s, i]
    }
  }
}

# its numbers, as they are reached from outside: next.x and so on
function leaves(s, before,    i, t, all) {
  for (i = 1; i <= count[s]; i++) {
    t = of[s, i]
    if (t in structs) all = all leaves(t, t in host ? before name[s, i] "." : before)
    else all = all " F(" before name[s, i] ")"
  }
  return all
}

# a zero for each field of the host's, braces for each struct of it
function zeros(s,    i, t, all) {
  for (i = 1; i <= count[s]; i++) {
    t = of[s, i]
    all = all (all == "" ? "" : ", ") (t in host ? "{" zeros(t) "}" : t in structs ? zeros(t) : "0")
  }
  return all
}

function stop(why) { print FILENAME ": " why > "/dev/stderr"; failed = 1; exit 2 }

END {
  if (failed) exit 2
  for (d = 1; d <= declared; d++) laid(order[d])
  for (d = 1; d <= declared; d++) {
    s = order[d]
    if (!(s in host)) continue
    found++
    k = 0
    fields(s, 0)
    h = host[s]
    if (to == "c") {
      printf "_Static_assert(sizeof(%s) == %d, \"the size of %s\");\n", h, size[s], h
      for (i = 1; i <= k; i++) {
        printf "_Static_assert(offsetof(%s, %s) == %d, \"the place of %s.%s\");\n", h, f_name[i], f_place[i], h, f_name[i]
        printf "_Static_assert(_Generic(((%s *)0)->%s, %s: 1, default: 0), \"the type of %s.%s\");\n", h, f_name[i], type[f_type[i]], h, f_name[i]
      }
      # -Wmissing-field-initializers tells a field more, and the compiler one less
      printf "static const %s every_%s __attribute__((unused)) = {%s};\n", h, h, zeros(s)
      printf "#define FIELDS_%s(F)%s\n", h, leaves(s, "")
    } else if (to == "python") {
      for (i = 1; i <= k; i++) printf "%s %d %s %s %d\n", h, size[s], f_name[i], type[f_type[i]], f_place[i]
    } else {
      printf "const _: () = assert!(core::mem::size_of::<%s>() == %d, \"the size of %s\");\n", h, size[s], h
      for (i = 1; i <= k; i++) printf "const _: () = assert!(core::mem::offset_of!(%s, %s) == %d, \"the place of %s.%s\");\n", h, f_name[i], f_place[i], h, f_name[i]
      # a pattern without `..` names every field and no other
      printf "pub fn every_%s(a: %s) {\n    let %s {", h, h, h
      for (i = 1; i <= k; i++) printf " %s,", f_name[i]
      printf " } = a;\n"
      for (i = 1; i <= k; i++) printf "    let _: %s = %s;\n", type[f_type[i]], f_name[i]
      printf "}\n"
    }
  }
  for (s in host) if (!(s in structs)) stop("no struct " s " is marked #[repr(C)]")
  for (s in structs) if (!(s in host) && !(s in nested)) stop(s " is marked #[repr(C)], and no host knows it")
}
