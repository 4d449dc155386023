//! The port's calls, as the static library has them.
extern "C" {
    fn estivolh_check(chart: *const u8, chart_len: usize) -> u64;
    fn estivolh_batch(
        book: *mut u64,
        book_len: usize,
        chart: *const u8,
        chart_len: usize,
        entries: *const i64,
        entries_len: usize,
        answers: *mut u64,
        answers_len: usize,
    ) -> u64;
    fn estivolh_write_chart(
        vertices: *const i64,
        vertices_len: usize,
        half_edges: *const i64,
        half_edges_len: usize,
        faces: *const i64,
        faces_len: usize,
        text: *mut u8,
        text_len: usize,
        found: *mut u64,
        found_len: usize,
    ) -> u64;
    fn estivolh_insert(
        chart: *const u8,
        chart_len: usize,
        x: i64,
        y: i64,
        value: i64,
        text: *mut u8,
        text_len: usize,
        found: *mut u64,
        found_len: usize,
    ) -> u64;
}

pub fn check(chart: &[u8]) -> u64 {
    unsafe { estivolh_check(chart.as_ptr(), chart.len()) }
}

pub fn batch(book: &mut [u64; 34], chart: &[u8], entries: &[i64], answers: &mut [u64]) -> u64 {
    unsafe {
        estivolh_batch(
            book.as_mut_ptr(),
            book.len(),
            chart.as_ptr(),
            chart.len(),
            entries.as_ptr(),
            entries.len(),
            answers.as_mut_ptr(),
            answers.len(),
        )
    }
}

pub fn write(vertices: &[i64], half: &[i64], faces: &[i64], text: &mut [u8], found: &mut [u64]) -> u64 {
    unsafe {
        estivolh_write_chart(
            vertices.as_ptr(),
            vertices.len(),
            half.as_ptr(),
            half.len(),
            faces.as_ptr(),
            faces.len(),
            text.as_mut_ptr(),
            text.len(),
            found.as_mut_ptr(),
            found.len(),
        )
    }
}

pub fn insert(chart: &[u8], (x, y): (i64, i64), value: i64, text: &mut [u8], found: &mut [u64]) -> u64 {
    unsafe { estivolh_insert(chart.as_ptr(), chart.len(), x, y, value, text.as_mut_ptr(), text.len(), found.as_mut_ptr(), found.len()) }
}
