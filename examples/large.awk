# A map with n roads, sections, junctions and lanes, half as many connections and pairs, edges, and names of size bytes each:
# awk -v n=4000 -v size=8 -f large.awk
function name(k, i) { return k sprintf("%0" (size - 1) "d", i) }
BEGIN {
    for (i = 0; i < n; i++) print "road", name("r", i), "to", (i % 4 ? "road " name("r", (i + 1) % n) " start" : "junction " name("j", i) " start?"), "sections 0"
    for (i = 0; i < n; i++) {
        print "junction", name("j", i), "direct"
        if (i % 2 == 0) print "connection", name("r", i), name("r", i + 1), "start\npair -1 -1"
    }
    for (i = 0; i < n; i++) {
        print "lane", i, name("r", i), "0 -1 forward next -1"
        print "edges", i, "0 0", i, "-3.5 0", i + 1, "0 0", i + 1.25, "-3.5 0"
    }
}
