# A map with one lane that leads over a junction to n others, two-way all of them: awk -v n=8192 -f star.awk
BEGIN {
    print "road hub to junction j sections 0"
    for (i = 0; i < n; i++) print "road r" i " from road hub end sections 0"
    print "junction j common"
    for (i = 0; i < n; i++) print "connection hub r" i " start\npair -1 -1"
    print "lane " n " hub 0 -1 both"
    for (i = 0; i < n; i++) print "lane " i " r" i " 0 -1 both"
}
