# 2,000 segments of one connection, of each four the last two in the wrong order
BEGIN {
    print "1.000000 c>s SYN 1000 0"
    print "1.000100 s>c SYN ACK 5000 1001"
    for (turn = 0; turn < 2000; turn++) {
        place = turn
        if (turn % 4 == 2) place = turn + 1
        if (turn % 4 == 3) place = turn - 1
        printf "2.%06d c>s PSH ACK %d 5001 0x%02x%02x\n", turn, 1001 + 2 * place, place % 256, int(place / 256)
    }
}
