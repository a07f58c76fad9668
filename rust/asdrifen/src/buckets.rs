//! The buckets to lock, each once, in one order.

use crate::answers::Refused;
use crate::{lent, limits};

/// The distinct elements of the input, ascending, by sorting. They are the first part of the output.
///
/// ```
/// let mut output = [0; 4];
/// let order = asdrifen::canonical_buckets_sort(&[3, 1, 3, 0], 4, &mut output)?;
/// assert_eq!(order, [0, 1, 3]);
/// # Ok::<(), asdrifen::Refused>(())
/// ```
pub fn canonical_buckets_sort<'a>(
    input: &[u32],
    buckets: u32,
    output: &'a mut [u32],
) -> Result<&'a [u32], Refused> {
    let distinct = lent::canonical_buckets_sort(input, buckets, output).result()?;
    Ok(&output[..distinct as usize])
}

/// The same by a bit to each bucket, which is quicker for long inputs. The scratch may hold anything.
///
/// ```
/// use asdrifen::{canonical_buckets_bitmap, scratch_length};
///
/// let mut output = [0; 4];
/// let mut scratch = [0; scratch_length(4)];
/// let order = canonical_buckets_bitmap(&[3, 1, 3, 0], 4, &mut output, &mut scratch)?;
/// assert_eq!(order, [0, 1, 3]);
/// assert_eq!(scratch, [0b1011]);
/// # Ok::<(), asdrifen::Refused>(())
/// ```
pub fn canonical_buckets_bitmap<'a>(
    input: &[u32],
    buckets: u32,
    output: &'a mut [u32],
    scratch: &mut [u32],
) -> Result<&'a [u32], Refused> {
    let distinct = lent::canonical_buckets_bitmap(input, buckets, output, scratch).result()?;
    Ok(&output[..distinct as usize])
}

/// The same with lists of its own.
///
/// ```
/// assert_eq!(asdrifen::canonical_buckets(&[3, 1, 3, 0], 4)?, [0, 1, 3]);
///
/// let refused = asdrifen::canonical_buckets(&[2, 9, 7], 5).unwrap_err();
/// assert_eq!(refused.named, asdrifen::Named::Element(9));
/// # Ok::<(), asdrifen::Refused>(())
/// ```
pub fn canonical_buckets(input: &[u32], buckets: u32) -> Result<Vec<u32>, Refused> {
    let mut output = vec![0; output_length(input.len(), buckets)];
    // Above the limit the call refuses before it asks for scratch, so none is made for it.
    let mut scratch = vec![0; scratch_length(buckets.min(limits::BUCKETS))];
    let distinct = canonical_buckets_bitmap(input, buckets, &mut output, &mut scratch)?.len();
    output.truncate(distinct);
    Ok(output)
}

/// How many numbers of output are enough: the smaller of input length and bucket count.
pub const fn output_length(input_length: usize, buckets: u32) -> usize {
    if input_length < buckets as usize {
        input_length
    } else {
        buckets as usize
    }
}

/// How many numbers of scratch are enough: one for every 32 buckets.
pub const fn scratch_length(buckets: u32) -> usize {
    buckets.div_ceil(32) as usize
}
