# Makes a scenario of a live Toxiproxy's answer to GET /proxies, or of a scenario file with fractions: an array of
# proxies, in which toxicities are counted in parts per million.
[.[] | .toxics = [(.toxics // [])[] | .toxicity_ppm //= ((.toxicity // 1) * 1000000 | round) | del(.toxicity)]]
