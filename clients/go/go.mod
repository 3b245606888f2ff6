module example.org/toxicap

go 1.18
