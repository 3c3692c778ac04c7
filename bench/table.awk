# Reads lines "what<tab>implementation<tab>ns per byte", keeps the least of each, prints the table.
# Variables: mib, ironclad_mib, grouped_mib, input_mib.
BEGIN { FS = "\t" }

{ if (!(($1, $2) in least) || $3 + 0 < least[$1, $2]) least[$1, $2] = $3 + 0 }

# 0 where nothing was measured; never adds a key.
function time(what, name) { return ((what, name) in least) ? least[what, name] : 0 }

function faster_build(what, word,   gcc, clang) {
  gcc = time(what, word "-gcc")
  clang = time(what, word "-clang")
  return gcc < clang ? gcc : clang
}

function ratio(a, b) { return a > 0 && b > 0 ? sprintf("%.2f", a / b) : "" }

function beside(a, b, name) { return a > 0 && b > 0 ? ratio(a, b) " x " name : "" }

function with_commas(n,   digits) {
  digits = sprintf("%.0f", n)
  while (match(digits, /[0-9][0-9][0-9][0-9]($|,)/))
    digits = substr(digits, 1, RSTART) "," substr(digits, RSTART + 1)
  return digits
}

# The row of one measurement; the peers' time is count times their measurement peers.
function row(label, what, name, peers, count, note,   ns) {
  ns = time(what, name)
  if (ns == 0) return
  printf "| %s | %s | %s | %.3f | %s | %s | %s | %s |\n", label, title[name], with_commas(1e9 / ns), ns,
    ratio(ns, count * faster_build(peers, "u64")), ratio(ns, count * faster_build(peers, "sse2")),
    ratio(ns, count * time(peers, "ironclad")), note
}

# Ours and the four peers in C.
function rows(label, what, beside_what,   i, names, note) {
  split("sliced u64-gcc u64-clang sse2-gcc sse2-clang", names, " ")
  for (i = 1; i <= 5; i++) {
    note = beside_what ? beside(time(what, names[i]), time(beside_what, names[i]), beside_what) : ""
    row(label, what, names[i], what, 1, note)
  }
}

END {
  title["sliced"] = "Gobutlin, sliced"
  title["grouped"] = "Gobutlin, grouped"
  title["program"] = "Gobutlin, digest program"
  title["u64-gcc"] = "C, pairs of uint64_t, gcc -O3"
  title["u64-clang"] = "C, pairs of uint64_t, clang -O3"
  title["sse2-gcc"] = "C, SSE2, gcc -O3"
  title["sse2-clang"] = "C, SSE2, clang -O3"
  title["ironclad"] = "cl-ironclad, sbcl"
  print "| what | implementation | bytes per second | ns per byte | time / C uint64_t | time / C SSE2 | time / ironclad | beside |"
  print "|---|---|---|---|---|---|---|---|"
  rows("JH-256, " mib " MiB in memory", "hash")
  row("JH-256, " ironclad_mib " MiB in memory", "hash", "ironclad", "hash", 1, "")
  row("JH-256, " grouped_mib " MiB in memory", "hash", "grouped", "hash", 1,
    beside(time("hash", "grouped"), time("hash", "sliced"), "sliced"))
  row("four sizes, " input_mib " MiB in memory", "four", "sliced", "hash", 4,
    beside(time("four", "sliced"), time("hash", "sliced"), "one size"))
  row("four sizes, " input_mib " MiB of standard input", "input", "program", "hash", 4,
    beside(time("input", "program"), time("four", "sliced"), "in memory"))
  rows("forth, a state of 128 bytes", "forth")
  rows("back, a state of 128 bytes", "back", "forth")
  print ""
  print "time / PEER: below 1 is faster than the peer; of its builds by gcc and clang the faster one counts."
  print "Four sizes stand beside four times the peer's JH-256."
}
