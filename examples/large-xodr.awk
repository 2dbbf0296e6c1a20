# awk -v n=10000 -f large-xodr.awk: an OpenDRIVE file of n roads in rows of a hundred, each leading to the next; every tenth has two lanes, so n = 10000
# gives 11,000 lanes. Widths, marks, speeds and elevations stand in it as other programs write them.
function lane(k, next_one, back) {
    print "                    <lane id=\"" k "\" type=\"driving\" level=\"false\">"
    print "                        <link>"
    if (back) print "                            <predecessor id=\"-1\"/>"
    if (next_one) print "                            <successor id=\"-1\"/>"
    print "                        </link>"
    print "                        <width sOffset=\"0.00000000\" a=\"3.50000000\" b=\"0.00000000\" c=\"0.00000000\" d=\"0.00000000\"/>"
    print "                        <roadMark sOffset=\"0.00000000\" type=\"solid\" weight=\"standard\" color=\"standard\" width=\"0.13\"/>"
    print "                        <height sOffset=\"0.00000000\" inner=\"0.00000000\" outer=\"0.00000000\"/>"
    print "                        <speed sOffset=\"0.00000000\" max=\"13.89\" unit=\"m/s\"/>"
    print "                        <userData><vectorLane sOffset=\"0.00000000\" laneId=\"lane\" travelDir=\"forward\"/></userData>"
    print "                    </lane>"
}
BEGIN {
    print "<?xml version=\"1.0\" encoding=\"UTF-8\"?>"
    print "<OpenDRIVE>"
    print "    <header revMajor=\"1\" revMinor=\"4\" name=\"\" version=\"1.00\"/>"
    for (i = 0; i < n; i++) {
        first = i % 100 == 0
        last = i % 100 == 99 || i == n - 1
        x = i % 100 * 40
        y = int(i / 100) * 20
        print "    <road name=\"road " i "\" length=\"40.00000000\" id=\"" i "\" junction=\"-1\">"
        print "        <link>"
        if (!first) print "            <predecessor elementType=\"road\" elementId=\"" i - 1 "\" contactPoint=\"end\"/>"
        if (!last) print "            <successor elementType=\"road\" elementId=\"" i + 1 "\" contactPoint=\"start\"/>"
        print "        </link>"
        print "        <type s=\"0.00000000\" type=\"town\"><speed max=\"50\" unit=\"km/h\"/></type>"
        print "        <planView>"
        print "            <geometry s=\"0.00000000\" x=\"" x ".00000000\" y=\"" y ".00000000\" hdg=\"0.00000000\" length=\"40.00000000\"><line/></geometry>"
        print "        </planView>"
        print "        <elevationProfile><elevation s=\"0.00000000\" a=\"0.00000000\" b=\"0.00000000\" c=\"0.00000000\" d=\"0.00000000\"/></elevationProfile>"
        print "        <lateralProfile/>"
        print "        <lanes>"
        print "            <laneOffset s=\"0.00000000\" a=\"0.00000000\" b=\"0.00000000\" c=\"0.00000000\" d=\"0.00000000\"/>"
        print "            <laneSection s=\"0.00000000\">"
        print "                <center><lane id=\"0\" type=\"none\" level=\"false\"><roadMark sOffset=\"0.00000000\" type=\"none\"/></lane></center>"
        print "                <right>"
        lane(-1, !last, !first)
        if (i % 10 == 0) lane(-2, 0, 0)
        print "                </right>"
        print "            </laneSection>"
        print "        </lanes>"
        print "        <objects/>"
        print "        <signals/>"
        print "    </road>"
    }
    print "</OpenDRIVE>"
}
