//! Counts what was compared, by named behaviour, and says what differed.
// Several programs share this file, and not each uses all of it.
#![allow(dead_code)]

use std::process::ExitCode;

struct Behaviour {
    name: String,
    inputs: u64,
    failed: u64,
    first: String,
}

#[derive(Default)]
pub struct Report {
    behaviours: Vec<Behaviour>,
}

impl Report {
    fn behaviour(&mut self, name: &str) -> &mut Behaviour {
        let at = self.behaviours.iter().position(|b| b.name == name).unwrap_or_else(|| {
            let new = Behaviour { name: name.to_string(), inputs: 0, failed: 0, first: String::new() };
            self.behaviours.push(new);
            self.behaviours.len() - 1
        });
        &mut self.behaviours[at]
    }

    /// Counts one input; `describe` is only called for the first that fails.
    pub fn check(&mut self, name: &str, holds: bool, describe: impl FnOnce() -> String) {
        let behaviour = self.behaviour(name);
        behaviour.inputs += 1;
        if !holds {
            behaviour.failed += 1;
            if behaviour.failed == 1 {
                behaviour.first = describe();
            }
        }
    }

    /// Compares two replies of any kind.
    pub fn same<T: PartialEq + std::fmt::Debug>(&mut self, name: &str, archive: &T, model: &T) {
        self.check(name, archive == model, || format!("archive {archive:?}\n  model {model:?}"));
    }

    pub fn model_checks(&mut self, checks: Vec<(&'static str, bool)>) {
        for (name, holds) in checks {
            self.check(name, holds, || "the model itself is wrong".to_string());
        }
    }

    /// Fails a behaviour that no input has shown.
    pub fn met(&mut self, name: &str) {
        self.met_often(name, 1);
    }

    /// Fails a behaviour that fewer inputs have shown.
    pub fn met_often(&mut self, name: &str, least: u64) {
        let inputs = self.behaviour(name).inputs;
        if inputs < least {
            self.check(name, false, || format!("only {inputs} inputs came to this, and not {least}"));
        }
    }

    /// Prints a line for each behaviour, and at the end how many.
    pub fn finish(self, program: &str) -> ExitCode {
        let mut failed = 0;
        for b in &self.behaviours {
            if b.failed == 0 {
                println!("ok {} ({})", b.name, b.inputs);
            } else {
                failed += 1;
                println!("FAILED {} ({} of {})\n  {}", b.name, b.failed, b.inputs, b.first);
            }
        }
        let inputs: u64 = self.behaviours.iter().map(|b| b.inputs).sum();
        println!("{program}: {} behaviours, {inputs} inputs, {failed} failed", self.behaviours.len());
        if failed == 0 {
            ExitCode::SUCCESS
        } else {
            ExitCode::FAILURE
        }
    }
}
