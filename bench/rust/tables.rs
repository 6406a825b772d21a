//! Checks the tables of the fast planner by a second source each: the events by the model, for every code and mask (those of
//! the C-Box by the patterns that the manual prints), the places of the boxes by the rule that they follow, and the precise
//! events by the model's plans.

mod planner;

use planner::devices::{Device, Setup, DEVICES};
use planner::fast::search::first_plan;
use planner::model;
use planner::requests::{self, Entry, Request};

fn check_events(device: &Device) {
    for (code, mask) in (0..=255).flat_map(|code| (0..=255).map(move |mask| (code, mask))) {
        let event = Request::Event { code, mask, allowed: 1 };
        let (table, printed) = (requests::refusal_of(device, event), model::refusal_of(device, event));
        assert_eq!(table, printed, "{} event {code:02X} {mask:02X}", device.letter as char);
    }
    println!("{}: {} codes with {} pairs", device.letter as char, device.events.len(), device.pairs().len());
}

fn check_boxes(device: &Device) {
    for (number, offset) in device.boxes.iter().enumerate() {
        let reversed = (number as u8).reverse_bits() >> 5;
        assert_eq!(*offset, 0x20 * reversed as u64, "box {number}");
    }
    println!("{}: {} boxes", device.letter as char, device.boxes.len());
}

/// Every listed event by itself, for every allowed and every usable set: the plan and its writes.
fn check_precise(device: &'static Device) {
    for (usable, allowed) in (1..=device.all()).flat_map(|usable| (0..=device.all()).map(move |allowed| (usable, allowed))) {
        let setup = Setup { device, usable, fixed: 0, box_number: 0, freeze: 0, core: None };
        for (code, mask) in device.pairs() {
            let entry = Entry { id: 1, request: Request::Event { code, mask, allowed } };
            let (table, worded) = (first_plan(setup, &[entry]), model::plan::first_plan(setup, &[entry.request]));
            let same = table.map(|plan| plan[..1].to_vec()) == worded;
            assert!(same, "{} event {code:02X} {mask:02X} {allowed}, usable {usable}", device.letter as char);
        }
    }
    println!("{}: {} precise events", device.letter as char, device.precise.len());
}

fn main() {
    DEVICES.iter().for_each(check_events);
    check_boxes(Device::named(b'C' as u64).expect("a device"));
    check_precise(Device::named(b'B' as u64).expect("a device"));
}
