package toxicap

// ProxyEffects is what a proxy of a scenario does.
type ProxyEffects struct {
	Met    int           // how many connections meet it
	Toxics []ToxicEffect // what its toxics do, in their order
}

// ToxicEffect is what a toxic does to the connections that meet its proxy.
type ToxicEffect struct {
	Drawn   int // how many draw it, by its toxicity
	Changed int // how many have another line of the report, or other records, than if it were switched off
}

// Effects gives for each scenario what its proxies do. Arguments and errors are those of Rehearse.
func Effects(capture []byte, scenarios [][]byte, hosts []byte, seed uint64) (effects [][]ProxyEffects, err error) {
	numbers, err := effectNumbers(capture, scenarios, hosts, seed)
	if err != nil {
		return nil, err
	}
	next := func() int {
		number := numbers[0]
		numbers = numbers[1:]
		return int(number)
	}
	for _, scenario := range scenarios {
		proxies, _ := parsed(scenario).([]any)
		found := make([]ProxyEffects, len(proxies))
		for p, proxy := range proxies {
			toxics := toxicsOf(proxy)
			found[p] = ProxyEffects{next(), make([]ToxicEffect, len(toxics))}
			for _, stream := range []string{"upstream", "downstream"} {
				for t, toxic := range toxics {
					if streamOf(textAt(toxic, "stream")) == stream {
						found[p].Toxics[t] = ToxicEffect{next(), next()}
					}
				}
			}
		}
		effects = append(effects, found)
	}
	return effects, nil
}

func toxicsOf(proxy any) []any {
	toxics, _ := field(proxy, "toxics").([]any)
	return toxics
}
