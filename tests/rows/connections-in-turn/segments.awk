# 700 connections: their openings, the answers, a client's bytes each, a server's bytes each
BEGIN {
    for (step = 0; step < 4; step++)
        for (turn = 0; turn < 700; turn++) {
            host = "10.0.0.1:" 10000 + turn
            time = sprintf("1.%06d", step * 1000 + turn)
            bytes = sprintf("0x%02x%02x", turn % 256, step)
            if (step == 0) print time, host ">s SYN 1000 0"
            if (step == 1) print time, "s>" host " SYN ACK 5000 1001"
            if (step == 2) print time, host ">s PSH ACK 1001 5001", bytes
            if (step == 3) print time, "s>" host " PSH ACK 5001 1003", bytes
        }
}
