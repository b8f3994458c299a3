// A program in Rust over dsa_model_sys.rs, which lies beside it: a No-op from its portal to its end, and what crosses.
mod dsa_model_sys;

use dsa_model_sys::*;
use std::ffi::CStr;
use std::mem::size_of;

fn sizes() {
    assert_eq!(
        (size_of::<dsa_model>(), size_of::<dsa_descriptor>()),
        (16, 64)
    );
    assert_eq!(
        (
            size_of::<dsa_caps>(),
            size_of::<dsa_queue>(),
            size_of::<dsa_group>()
        ),
        (14, 12, 24)
    );
    assert_eq!(
        (
            size_of::<dsa_limits>(),
            size_of::<dsa_answer>(),
            size_of::<dsa_ending>()
        ),
        (2, 16, 16)
    );
    assert_eq!(
        (
            size_of::<dsa_entry>(),
            size_of::<dsa_batch>(),
            size_of::<dsa_event>()
        ),
        (28, 16, 44)
    );
    assert_eq!(size_of::<dsa_reason>(), 84);
}

fn name(text: *const core::ffi::c_char) -> &'static str {
    unsafe { CStr::from_ptr(text) }.to_str().unwrap()
}

fn names() {
    unsafe {
        assert_eq!(name(dsa_kind_name(DSA_NO_BUFFERS)), "no buffers");
        assert_eq!(name(dsa_fault_name(DSA_FAULT_BAD_INDEX)), "BadIndex");
        assert_eq!(name(dsa_command_name(DSA_ABORT_PASID)), "Abort PASID");
        assert_eq!(
            name(dsa_status_name(DSA_STATUS_BATCH_FAIL)),
            "DSA_COMP_BATCH_FAIL"
        );
        assert_eq!(
            name(dsa_operation_name(DSA_OP_COMPARE)),
            "DSA_OPCODE_COMPARE"
        );
        assert_eq!(name(dsa_operation_name(256)), "?");
        assert_eq!(name(dsa_load_name(DSA_LOAD_BAD_STEP)), "bad step");
        assert_eq!(name(dsa_reason_name(DSA_REASON_QUEUE_EMPTY)), "queue empty");
        assert_eq!(
            name(dsa_anew_result_name(DSA_ANEW_NO_MEMORY)),
            "no memory"
        );
    }
}

fn enabled() -> dsa_model {
    let caps = dsa_caps {
        queues: 1,
        groups: 1,
        engines: 1,
        total_size: 8,
        read_buffers: 16,
        slots: 2,
        max_batch_shift: 3,
        max_xfer_shift: 20,
    };
    let queue = dsa_queue {
        size: 8,
        threshold: 3,
        dedicated: 0,
        priority: 1,
        max_batch_shift: 3,
        max_xfer_shift: 20,
        pasid: 0,
    };
    let group = dsa_group {
        queues: 1,
        engines: 1,
        reserved: 4,
        allowed: 4,
    };
    let mut model = DSA_CLOSED;
    unsafe {
        assert_eq!(dsa_open(&mut model, &caps, 100), DSA_OPENED);
        assert_eq!(dsa_write_queue(&mut model, 0, &queue).kind, DSA_WRITTEN);
        assert_eq!(dsa_write_group(&mut model, 0, &group).kind, DSA_WRITTEN);
        for word in [
            DSA_COMMAND(DSA_ENABLE_DEVICE, 0),
            DSA_COMMAND(DSA_ENABLE_WQ, 0),
        ] {
            assert_eq!(dsa_command(&mut model, word).kind, DSA_ENDED);
        }
    }
    model
}

/// Why a step of this kind would be answered as it would.
unsafe fn reason(model: &dsa_model, kind: u32) -> Vec<u8> {
    let event = dsa_event {
        kind,
        ..core::mem::zeroed()
    };
    let mut buffer = [1; 64];
    let length = dsa_why(model, &event, buffer.as_mut_ptr(), 64) as usize;
    assert_eq!(buffer[length], 0);
    buffer[..length].iter().map(|byte| *byte as u8).collect()
}

/// The same as a kind and its numbers.
unsafe fn numbers(model: &dsa_model, kind: u32) -> dsa_reason {
    let event = dsa_event {
        kind,
        ..core::mem::zeroed()
    };
    let mut reason = core::mem::zeroed();
    assert_eq!(dsa_reason_of(model, &event, &mut reason), 1);
    reason
}

fn saved(model: &dsa_model) -> Vec<u8> {
    let mut bytes = vec![0; unsafe { dsa_saved_size(model) } as usize];
    let size = unsafe { dsa_save(model, bytes.as_mut_ptr(), bytes.len() as u64) };
    assert_eq!(size, bytes.len() as u64);
    bytes
}

fn main() {
    sizes();
    names();
    let (mut model, nothing) = (enabled(), dsa_descriptor { bytes: [0; 64] });
    unsafe {
        let accepted = dsa_enqcmd(&mut model, 0, 0, DSA_LIMITED, 5, &nothing);
        assert_eq!(
            accepted,
            dsa_answer {
                kind: DSA_ACCEPTED,
                ..accepted
            }
        );
        let taken = dsa_dispatch(&mut model, 0);
        assert_eq!(
            (taken.kind, taken.name, taken.cell),
            (DSA_TAKEN, accepted.name, accepted.cell)
        );
        let done = dsa_finish(&mut model, 0, taken.cell, taken.name, DSA_SUCCESS);
        assert_eq!((done.kind, done.more), (DSA_DONE, DSA_STATUS_SUCCESS));
        assert_eq!(dsa_fate_of(&model, taken.name).kind, DSA_COMPLETED);
        assert_eq!(reason(&model, DSA_EVENT_POLL), b"no command is active");
        assert_eq!(reason(&model, DSA_EVENT_DISPATCH), b"q0 is empty");
        let mut idle = numbers(&model, DSA_EVENT_DISPATCH);
        assert_eq!((idle.kind, idle.engine), (DSA_REASON_ENGINE_IDLE, 0));
        assert_eq!(dsa_queue_reason(&model, 0, 0, &mut idle), 1);
        assert_eq!((idle.kind, idle.queue), (DSA_REASON_QUEUE_EMPTY, 0));
        assert_eq!(
            numbers(&model, DSA_EVENT_POLL).kind,
            DSA_REASON_NO_COMMAND
        );
        let (bytes, mut other) = (saved(&model), dsa_closed());
        let size = bytes.len() as u64;
        let result = dsa_load(&mut other, bytes.as_ptr(), size - 1);
        assert_eq!((result, other.holds), (DSA_LOAD_BAD_LENGTH, false));
        assert_eq!(dsa_load(&mut other, bytes.as_ptr(), size), DSA_LOADED);
        assert_eq!(dsa_fate_of(&other, taken.name).kind, DSA_COMPLETED);
        assert_eq!(saved(&other), bytes);
        dsa_close(&mut other);
        assert_eq!(dsa_begin_anew(&mut model, 0), DSA_ANEW_BEGUN);
        assert_eq!(
            (dsa_is_anew(&model), dsa_room(&model), dsa_fates_length(&model)),
            (1, 100, 0)
        );
        let mut byte = 7;
        assert_eq!(dsa_saved_size(&model), 0);
        assert_eq!(dsa_save(&model, &mut byte, 1), DSA_NOT_SAVED);
        dsa_close(&mut model);
        assert_eq!((dsa_held(&model), dsa_closed().holds), (DSA_NONE, false));
        dsa_close(core::ptr::null_mut());
        assert_eq!(dsa_version(), DSA_VERSION);
    }
}
