# 2,500 openings and their answers
BEGIN {
    for (turn = 0; turn < 2500; turn++) {
        host = "10.0.0.1:" 10000 + turn
        printf "1.%06d %s>s SYN 1000 0\n", turn, host
        printf "2.000000 s>%s SYN ACK 5000 1001\n", host
    }
}
