//! The functions of `include/czubrotek.h`, which says what each returns and what it writes over the words lent as `out`.
//!
//! A slice stands for a pointer and the length after it, a `u64` for a `size_t`.

#[cfg(not(target_arch = "x86_64"))]
compile_error!("the proved library is compiled for x86-64 alone");

/// What a function returns where fewer words are lent than it needs.
pub const TOO_FEW: u32 = 255;

/// Declares functions of the library, and writes a safe function over each. A parameter is `&[T] name`, `&mut [T] name` or
/// `u64 name`, with the type first as in C; `out`, the last one of every function, is left out.
macro_rules! functions {
    ($(fn $name:ident($(
        $(&[$of:ident] $slice:ident)?
        $(&mut [$of_mut:ident] $slice_mut:ident)?
        $(u64 $number:ident)?
    ),*);)*) => {
        $(
            #[inline]
            pub fn $name(
                $($($slice: &[$of],)? $($slice_mut: &mut [$of_mut],)? $($number: u64,)?)*
                out: &mut [u64],
            ) -> u32 {
                unsafe extern "C" {
                    fn $name(
                        $(
                            $($slice: *const $of, _: usize,)?
                            $($slice_mut: *mut $of_mut, _: usize,)?
                            $($number: usize,)?
                        )*
                        out: *mut u64,
                        _: usize,
                    ) -> u32;
                }
                // SAFETY: each pointer goes with the length of the slice it was taken from, each slice is borrowed until the
                // call returns, and the library is proved to stay inside what it is lent, for all bytes and numbers.
                unsafe {
                    $name(
                        $(
                            $($slice.as_ptr(), $slice.len(),)?
                            $($slice_mut.as_mut_ptr(), $slice_mut.len(),)?
                            $($number as usize,)?
                        )*
                        out.as_mut_ptr(),
                        out.len(),
                    )
                }
            }
        )*

        /// Every function as C declares it, with Rust's names of the types.
        #[cfg(test)]
        const PROTOTYPES: &[&str] = &[$(concat!(
            "u32 ", stringify!($name), "(",
            $(
                $("const ", stringify!($of), " *", stringify!($slice), ", usize ", stringify!($slice), "_len, ",)?
                $(stringify!($of_mut), " *", stringify!($slice_mut), ", usize ", stringify!($slice_mut), "_len, ",)?
                $("usize ", stringify!($number), ", ",)?
            )*
            "u64 *out, usize out_len)"
        )),*];
    };
}

functions! {
    fn bj_check(&[u8] doc, &mut [u8] marks);
    fn bj_kind_and_size(&[u8] doc, u64 tree);
    fn bj_element(&[u8] doc, u64 tree, u64 i);
    fn bj_member(&[u8] doc, u64 tree, u64 j);
    fn bj_entry_type(&[u8] doc, u64 tree);
    fn bj_container(&[u8] doc, u64 tree);
    fn bj_string(&[u8] doc, u64 tree);
    fn bj_number(&[u8] doc, u64 tree);
    fn bj_slot(&[u8] doc, u64 slot);
    fn bj_quick_lookup(&[u8] doc, u64 tree, &[u8] key);
    fn bj_plain_scan(&[u8] doc, u64 tree, &[u8] key);

    fn fj_check_list(&[u8] list);
    fn fj_check(&[u8] doc, &[u8] list, &mut [u32] keys);
    fn fj_end(&[u8] doc, &[u8] list, &[u32] keys, u64 count, u64 at);
    fn fj_kind(&[u8] doc, &[u8] list, u64 at);
    fn fj_number(&[u8] doc, &[u8] list, u64 at);
    fn fj_string(&[u8] doc, &[u8] list, u64 at);
    fn fj_element(&[u8] doc, &[u8] list, &[u32] keys, u64 count, u64 at, u64 i);
    fn fj_member(&[u8] doc, &[u8] list, &[u32] keys, u64 count, u64 at, u64 j);
    fn fj_first_member(&[u8] doc, &[u8] list, &[u32] keys, u64 count, u64 at, &[u8] key);
    fn fj_key(&[u8] doc, &[u8] list, &[u32] keys, u64 count, u64 at);

    fn text_compare(&[u8] a, &[u8] b);
}

#[cfg(test)]
mod tests {
    #[test]
    fn as_in_the_header() {
        // a prototype starts with what it returns, and goes on in lines that start with a space
        let header = include_str!("../../../include/czubrotek.h");
        let lines = header.split("*/").flat_map(|part| {
            let (code, _comment) = part.split_once("/*").unwrap_or((part, ""));
            code.lines()
        });
        let words: Vec<&str> = lines
            .filter(|line| line.starts_with("uint32_t ") || line.starts_with(' '))
            .flat_map(str::split_whitespace)
            .collect();
        let prototypes = words
            .join(" ")
            .replace("uint8_t", "u8")
            .replace("uint32_t", "u32")
            .replace("uint64_t", "u64")
            .replace("size_t", "usize");
        let prototypes: Vec<&str> = prototypes.split_terminator(';').map(str::trim).collect();
        assert_eq!(prototypes, super::PROTOTYPES);
        let too_few = format!("#define CZUBROTEK_TOO_FEW {}\n", super::TOO_FEW);
        assert!(header.contains(&too_few));
    }
}
