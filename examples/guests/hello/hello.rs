//! The smallest useful guest, as hello.c: an answer of status 200 with the body "hello\n".
#![no_std]
#![no_main]

#[path = "../edge.rs"]
mod edge;

use edge::{abi, http_body, http_resp, status, BACK};

const TEXT: &[u8] = b"hello\n";

#[no_mangle]
pub extern "C" fn _start() {
    let (mut response, mut body, mut written) = (0, 0, 0);
    unsafe {
        if abi::init(1) != status::OK
            || http_resp::new(&mut response) != status::OK
            || http_body::new(&mut body) != status::OK
        {
            return;
        }
        if http_body::write(body, TEXT.as_ptr(), TEXT.len() as u32, BACK, &mut written) == status::OK {
            http_resp::send_downstream(response, body, 0);
        }
    }
}

#[panic_handler]
fn panic(_: &core::panic::PanicInfo) -> ! {
    core::arch::wasm32::unreachable()
}
