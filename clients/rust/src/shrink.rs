//! A scenario that is made smaller, as long as it fails.
use crate::json::Value;
use crate::refusal::Kind;
use crate::rehearse::{rehearse, Output};
use crate::search::{Found, Search, SearchError, Searched, Verdict};

/// A search, a function, a scenario that is changed, and what was found of it last.
struct Shrinking<'s, 'a, F> {
    search: &'s Search<'a>,
    fails: F,
    proxies: Value,
    found: Found,
}

impl Search<'_> {
    /// A scenario that fails with fewer toxics and smaller numbers, and its seed. A scenario fails if a function says so under one of the seeds, the
    /// least of which is its seed. Toxics and proxies without effect are left out first. No proxy and no toxic of the smallest can be left out, no
    /// attribute be one less and no toxicity be 1 so that it fails still.
    ///
    /// # Errors
    ///
    /// As [`SearchError`] says.
    pub fn shrink<V: Verdict>(&self, scenario: &str, fails: impl Fn(&[Output]) -> V + Sync) -> Result<Found, SearchError> {
        self.check(&[scenario])?;
        let found = self.least(&[scenario], self.seeds.clone(), &fails)?.ok_or(SearchError::Passes)?;
        let proxies = Value::read(&mut &*scenario).ok_or(SearchError::Passes)?;
        let mut it = Shrinking { search: self, fails, proxies, found };
        match it.shrink() {
            Ok(()) => Ok(it.found),
            Err(SearchError::Ended(None)) => Err(SearchError::Ended(Some(it.found))),
            Err(fault) => Err(fault),
        }
    }
}

impl<V: Verdict, F: Fn(&[Output]) -> V + Sync> Shrinking<'_, '_, F> {
    fn shrink(&mut self) -> Result<(), SearchError> {
        if self.again("[]")?.is_some() {
            return Err(SearchError::FailsUntouched);
        }
        let expected = self.outputs()?;
        self.leave_out_all(&|it| Ok(it.outputs()? == expected))?;
        self.found.scenarios = vec![self.proxies.to_string()];
        loop {
            let before = self.proxies.clone();
            let toxics = self.leave_out_all(&Self::still_fails)?;
            for toxic in &toxics {
                self.make_smaller(toxic)?;
            }
            for toxic in &toxics {
                self.apply_always(toxic)?;
            }
            if self.proxies == before {
                break;
            }
        }
        let found = self.search.least(&[&self.proxies.to_string()], self.search.seeds.clone(), &self.fails)?;
        self.found = found.unwrap_or_else(|| self.found.clone());
        Ok(())
    }

    /// What a scenario finds under the seed of the last one.
    fn again(&self, scenario: &str) -> Searched {
        self.search.least(&[scenario], self.found.seed..self.found.seed + 1, &self.fails)
    }

    fn outputs(&self) -> Result<Vec<Output>, SearchError> {
        Ok(rehearse(self.search.capture, &[&self.proxies.to_string()], self.search.hosts, self.found.seed)?)
    }

    /// Whether the scenario fails, first under the seed of the last one that did. One with an attribute that is too small, such as a rate of 0, does not.
    fn still_fails(&mut self) -> Result<bool, SearchError> {
        let text = self.proxies.to_string();
        let found = match self.again(&text) {
            Ok(None) => self.search.least(&[&text], self.search.seeds.clone(), &self.fails)?,
            Err(SearchError::Refused(refusal)) if refusal.kind == Kind::AttributeRange => None,
            found => found?,
        };
        let fails = found.is_some();
        self.found = found.unwrap_or_else(|| self.found.clone());
        Ok(fails)
    }

    /// Takes out each proxy and each toxic without which it is good, and gives the paths of the toxics that are left.
    fn leave_out_all(&mut self, is_good: &dyn Fn(&mut Self) -> Result<bool, SearchError>) -> Result<Vec<[String; 3]>, SearchError> {
        let mut toxics = Vec::new();
        for proxy in 0..self.leave_out(&[], is_good)? {
            let proxy = proxy.to_string();
            let left = self.leave_out(&[&proxy, "toxics"], is_good)?;
            toxics.extend((0..left).map(|toxic| [proxy.clone(), "toxics".into(), toxic.to_string()]));
        }
        Ok(toxics)
    }

    /// Takes out each item of a list without which it is good, the last one first: so the toxics before it keep their numbers, and what they draw. How
    /// many are left.
    fn leave_out(&mut self, path: &[&str], is_good: &dyn Fn(&mut Self) -> Result<bool, SearchError>) -> Result<usize, SearchError> {
        let mut left = self.proxies.at(path).and_then(Value::list).map_or(0, |items| items.len());
        for place in (0..left).rev() {
            let before = self.proxies.clone();
            self.proxies.at(path).and_then(Value::list).map(|items| items.remove(place));
            if is_good(self)? {
                left -= 1;
            } else {
                self.proxies = before;
            }
        }
        Ok(left)
    }

    /// Makes each attribute of a toxic smaller while it fails still: tries 0, 1, 3, 7 and on, and then halves what is left.
    fn make_smaller(&mut self, [proxy, toxics, toxic]: &[String; 3]) -> Result<(), SearchError> {
        let Some(Value::Object(attributes)) = self.proxies.at(&[proxy, toxics, toxic, "attributes"]) else { return Ok(()) };
        let mut names: Vec<_> = attributes.iter().map(|(name, _)| name.clone()).collect();
        names.sort();
        for name in names {
            let path = [proxy, toxics, toxic, "attributes", &*name];
            let Some(Ok(mut failing)) = self.proxies.at(&path).map(|value| value.to_string().parse::<i64>()) else { continue };
            let mut passes = -1;
            while failing - passes > 1 {
                let middle = (passes + (failing - passes) / 2).min(passes.saturating_mul(2).saturating_add(1).max(0));
                self.set(&path, middle);
                *(if self.still_fails()? { &mut failing } else { &mut passes }) = middle;
            }
            self.set(&path, failing);
        }
        Ok(())
    }

    fn set(&mut self, path: &[&str], number: i64) {
        if let Some(value) = self.proxies.at(path) {
            *value = Value::Plain(number.to_string());
        }
    }

    /// Takes out a toxicity if it fails still, so that the toxic applies to all connections.
    fn apply_always(&mut self, [proxy, toxics, toxic]: &[String; 3]) -> Result<(), SearchError> {
        for name in ["toxicity_ppm", "toxicity"] {
            let before = self.proxies.clone();
            let Some(Value::Object(members)) = self.proxies.at(&[proxy, toxics, toxic]) else { return Ok(()) };
            let count = members.len();
            members.retain(|(member, _)| member != name);
            if members.len() < count && !self.still_fails()? {
                self.proxies = before;
            }
        }
        Ok(())
    }
}
