//! A safe wrapper over libsaihkeb.a. The contracts ask nothing of the numbers or of the lists'
//! lengths (every function is defined on every input), so there is nothing to test before a call:
//! that a list is as long as its length says, is not null and overlaps no other, is what Rust's
//! slices are. A refusal is a number in the result, as in C; what the answers mean, and what an arm
//! has to be, stands in include/saihkeb.h.

mod library {
    extern "C" {
        pub fn saihkeb_solve_lent(
            family: u64,
            n: u64,
            arm: *const f64,
            arm_len: usize,
            pose: *const f64,
            pose_len: usize,
            limits: *const f64,
            limits_len: usize,
            angles: *mut f64,
            angles_len: usize,
            flags: *mut u8,
            flags_len: usize,
            counts: *mut [u64; 2],
        ) -> u64;
        pub fn saihkeb_solve_block_lent(
            block: *const u8,
            block_len: usize,
            limits: *const f64,
            limits_len: usize,
            angles: *mut f64,
            angles_len: usize,
            flags: *mut u8,
            flags_len: usize,
            counts: *mut [u64; 2],
        ) -> u64;
        pub fn saihkeb_limits_block_lent(
            block: *const u8,
            block_len: usize,
            limits: *mut [f64; 12],
        ) -> u64;
        pub fn saihkeb_solve_one_lent(
            family: u64,
            n: u64,
            arm: *const f64,
            arm_len: usize,
            pose: *const f64,
            pose_len: usize,
            limits: *const f64,
            limits_len: usize,
            angles: *mut [f64; 6],
            flag: *mut [u8; 1],
        ) -> u64;
        pub fn saihkeb_solve_track_lent(
            family: u64,
            n: u64,
            arm: *const f64,
            arm_len: usize,
            joint: u64,
            angle: f64,
            pose: *const f64,
            pose_len: usize,
            angles: *mut f64,
            angles_len: usize,
            flags: *mut u8,
            flags_len: usize,
            counts: *mut [u64; 2],
        ) -> u64;
        pub fn saihkeb_forward_kinematics_lent(
            arm: *const f64,
            arm_len: usize,
            angles: *const f64,
            angles_len: usize,
            pose: *mut f64,
            pose_len: usize,
        ) -> u64;
        pub fn saihkeb_arms_put_lent(
            buffer: *mut u8,
            buffer_len: usize,
            number: u8,
            arm: *const f64,
            arm_len: usize,
        ) -> u64;
        pub fn saihkeb_arms_find_lent(
            buffer: *const u8,
            buffer_len: usize,
            number: u8,
            arm: *mut [f64; 39],
        ) -> u64;
        pub fn saihkeb_arms_take_out_lent(buffer: *mut u8, buffer_len: usize, number: u8) -> u64;
        pub fn saihkeb_arms_compact_lent(buffer: *mut u8, buffer_len: usize) -> u64;
    }
}

/// The bytes of a block.
pub const BLOCK: usize = 512;

/// What a solve gives beside the two lists. Refusal 0 is none.
#[derive(Debug, Clone, Copy, PartialEq, Eq)]
pub struct Solved {
    pub refusal: u64,
    /// The answers inside the limits, also those that did not fit.
    pub answers: u64,
    /// The evaluations of family 6's search.
    pub evaluations: u64,
}

/// The solve call of include/saihkeb.h. The limits are twelve numbers or none.
pub fn solve(
    family: u64,
    n: u64,
    arm: &[f64],
    pose: &[f64],
    limits: &[f64],
    angles: &mut [f64],
    flags: &mut [u8],
) -> Solved {
    let mut counts = [0; 2];
    let refusal = unsafe {
        library::saihkeb_solve_lent(
            family,
            n,
            arm.as_ptr(),
            arm.len(),
            pose.as_ptr(),
            pose.len(),
            limits.as_ptr(),
            limits.len(),
            angles.as_mut_ptr(),
            angles.len(),
            flags.as_mut_ptr(),
            flags.len(),
            &mut counts,
        )
    };
    solved(refusal, counts)
}

/// The same for a pose block.
pub fn solve_block(block: &[u8], limits: &[f64], angles: &mut [f64], flags: &mut [u8]) -> Solved {
    let mut counts = [0; 2];
    let refusal = unsafe {
        library::saihkeb_solve_block_lent(
            block.as_ptr(),
            block.len(),
            limits.as_ptr(),
            limits.len(),
            angles.as_mut_ptr(),
            angles.len(),
            flags.as_mut_ptr(),
            flags.len(),
            &mut counts,
        )
    };
    solved(refusal, counts)
}

/// The twelve numbers of a limits block, or its refusal.
pub fn limits_block(block: &[u8]) -> Result<[f64; 12], u64> {
    let mut limits = [0.0; 12];
    let refusal =
        unsafe { library::saihkeb_limits_block_lent(block.as_ptr(), block.len(), &mut limits) };
    match refusal {
        0 => Ok(limits),
        refusal => Err(refusal),
    }
}

/// The first of the answers that `solve` gives with the same limits, its six angles and its flag, or the refusal:
/// 12 where there is none.
pub fn solve_one(
    family: u64,
    n: u64,
    arm: &[f64],
    pose: &[f64],
    limits: &[f64],
) -> Result<([f64; 6], u8), u64> {
    let (mut angles, mut flag) = ([0.0; 6], [0]);
    let refusal = unsafe {
        library::saihkeb_solve_one_lent(
            family,
            n,
            arm.as_ptr(),
            arm.len(),
            pose.as_ptr(),
            pose.len(),
            limits.as_ptr(),
            limits.len(),
            &mut angles,
            &mut flag,
        )
    };
    match refusal {
        0 => Ok((angles, flag[0])),
        refusal => Err(refusal),
    }
}

/// The solve call for seven axes, with one joint locked: the joint, counted from 0, and its angle. An answer is
/// seven angles.
pub fn solve_track(
    family: u64,
    n: u64,
    arm: &[f64],
    (joint, angle): (u64, f64),
    pose: &[f64],
    angles: &mut [f64],
    flags: &mut [u8],
) -> Solved {
    let mut counts = [0; 2];
    let refusal = unsafe {
        library::saihkeb_solve_track_lent(
            family,
            n,
            arm.as_ptr(),
            arm.len(),
            joint,
            angle,
            pose.as_ptr(),
            pose.len(),
            angles.as_mut_ptr(),
            angles.len(),
            flags.as_mut_ptr(),
            flags.len(),
            &mut counts,
        )
    };
    solved(refusal, counts)
}

fn solved(refusal: u64, [answers, evaluations]: [u64; 2]) -> Solved {
    Solved {
        refusal,
        answers,
        evaluations,
    }
}

/// The pose of six angles. With arrays no length can be refused.
pub fn forward_kinematics(arm: &[f64; 39], angles: &[f64; 6]) -> [f64; 12] {
    let mut pose = [0.0; 12];
    let refusal = unsafe {
        library::saihkeb_forward_kinematics_lent(
            arm.as_ptr(),
            arm.len(),
            angles.as_ptr(),
            angles.len(),
            pose.as_mut_ptr(),
            pose.len(),
        )
    };
    assert_eq!(refusal, 0, "lists of 39, 6 and 12");
    pose
}

fn given<T>(refusal: u64, result: T) -> Result<T, u64> {
    match refusal {
        0 => Ok(result),
        refusal => Err(refusal),
    }
}

/// Puts an arm into the first empty block of a file of arms, or gives the refusal and changes no byte.
pub fn arms_put(buffer: &mut [u8], number: u8, arm: &[f64]) -> Result<(), u64> {
    let (bytes, length) = (buffer.as_mut_ptr(), buffer.len());
    let refusal =
        unsafe { library::saihkeb_arms_put_lent(bytes, length, number, arm.as_ptr(), arm.len()) };
    given(refusal, ())
}

/// The arm of this number in a file of arms, or the refusal.
pub fn arms_find(buffer: &[u8], number: u8) -> Result<[f64; 39], u64> {
    let mut arm = [0.0; 39];
    let refusal =
        unsafe { library::saihkeb_arms_find_lent(buffer.as_ptr(), buffer.len(), number, &mut arm) };
    given(refusal, arm)
}

/// Takes the arm of this number out of a file of arms, or gives the refusal and changes no byte.
pub fn arms_take_out(buffer: &mut [u8], number: u8) -> Result<(), u64> {
    let (bytes, length) = (buffer.as_mut_ptr(), buffer.len());
    given(
        unsafe { library::saihkeb_arms_take_out_lent(bytes, length, number) },
        (),
    )
}

/// Moves the arms of a file to its front, in their order, or gives the refusal and changes no byte.
pub fn arms_compact(buffer: &mut [u8]) -> Result<(), u64> {
    let (bytes, length) = (buffer.as_mut_ptr(), buffer.len());
    given(
        unsafe { library::saihkeb_arms_compact_lent(bytes, length) },
        (),
    )
}
