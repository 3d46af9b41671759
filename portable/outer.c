/* The outermost layer of the programs, by hand: what reads a block and writes bytes, and what writes by a format. Above each function
 * stands the one of Rattle that it is in place of, without its contract; of a method that a trait declares, its name. A reader is
 * standard input here and a writer standard output, and neither is passed on. A write that fails is not reported, as there. */
#include <errno.h>
#include <inttypes.h>
#include <stdio.h>
#include <unistd.h>

/* std::io::traits::Read::read+decl */
static dm_Result_u64_Error dm_std_io_traits_Read_read(dm_slice_u8 buf)
{
    dm_Result_u64_Error result;
    ssize_t count = read(STDIN_FILENO, buf.at, (size_t)buf.length);
    memset(&result, 0, sizeof result);
    if (count < 0) {
        result.tag = dm_Result_u64_Error_Err;
    } else {
        result.tag = dm_Result_u64_Error_Ok;
        result.Ok.value = (uint64_t)count;
    }
    return result;
}

/* std::io::traits::Write::write_all+decl */
static void dm_std_io_traits_Write_write_all(dm_slice_u8 buf)
{
    uint64_t done = 0;
    while (done < buf.length) {
        ssize_t count = write(STDOUT_FILENO, buf.at + done, (size_t)(buf.length - done));
        if (count > 0)
            done += (uint64_t)count;
        else if (count == 0 || errno != EINTR)
            return;
    }
}

/* std::io::traits::Write::flush+decl */
static void dm_std_io_traits_Write_flush(void)
{
}

/* listing::output::put_number
 * fn put_number(out: &mut impl Write, n: u64) {
 *     let _ = write!(out, "{n}");
 * } */
static void dm_listing_output_put_number(uint64_t n)
{
    char text[24];
    snprintf(text, sizeof text, "%" PRIu64, n);
    dm_std_io_traits_Write_write_all(dm_slice_u8_of((uint8_t *)text, strlen(text)));
}

/* listing::output::put_character
 * fn put_character(out: &mut impl Write, c: u8) {
 *     match c {
 *         32..=126 => {
 *             let one = [c];
 *             put(out, &one);
 *         }
 *         _ => {
 *             let _ = write!(out, "\\x{c:02x}");
 *         }
 *     }
 * } */
static void dm_listing_output_put_character(uint8_t c)
{
    char text[8];
    if (c >= 32 && c <= 126) {
        text[0] = (char)c;
        text[1] = 0;
    } else {
        snprintf(text, sizeof text, "\\x%02x", (unsigned)c);
    }
    dm_std_io_traits_Write_write_all(dm_slice_u8_of((uint8_t *)text, strlen(text)));
}

/* commands::printing::single
 * fn single(out: &mut impl Write, x: f32) {
 *     if x != x {
 *         return put(out, b"nan");
 *     }
 *     let bits = f32::to_bits(x);
 *     let _ = write!(out, "{bits:08x}");
 * } */
static void dm_commands_printing_single(float x)
{
    char text[24] = "nan";
    if (x == x)
        snprintf(text, sizeof text, "%08" PRIx32, dm_float_bits(x));
    dm_std_io_traits_Write_write_all(dm_slice_u8_of((uint8_t *)text, strlen(text)));
}

/* commands::printing::double
 * fn double(out: &mut impl Write, x: f64) {
 *     if x != x {
 *         return put(out, b"nan");
 *     }
 *     let bits = f64::to_bits(x);
 *     let _ = write!(out, "{bits:016x}");
 * } */
static void dm_commands_printing_double(double x)
{
    char text[24] = "nan";
    if (x == x)
        snprintf(text, sizeof text, "%016" PRIx64, dm_double_bits(x));
    dm_std_io_traits_Write_write_all(dm_slice_u8_of((uint8_t *)text, strlen(text)));
}

/* console::main
 * fn main(rt: HostRuntime) {
 *     commands::serve(&mut rt.stdin(), &mut rt.stdout());
 * } */
int main(void)
{
    dm_commands_serving_serve();
    return 0;
}

/* tray::main
 * fn main(rt: HostRuntime) {
 *     tray_run::report_tray(&mut rt.stdin(), &mut rt.stdout());
 * } */
int main(void)
{
    dm_tray_run_report_tray();
    return 0;
}
