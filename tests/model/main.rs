//! Runs the model's self checks; it needs no archive.

#[path = "mod.rs"]
mod model;
#[path = "../host/report.rs"]
mod report;

use std::process::ExitCode;

fn main() -> ExitCode {
    let mut report = report::Report::default();
    report.model_checks(model::checks::frame_checks());
    report.model_checks(model::office_checks::office_checks());
    report.model_checks(model::joint_checks::joint_checks());
    report.model_checks(model::join_checks::join_checks());
    report.model_checks(model::past_checks::past_checks());
    report.model_checks(model::token_checks::token_checks());
    report.model_checks(model::script_checks::script_checks());
    report.finish("model")
}
