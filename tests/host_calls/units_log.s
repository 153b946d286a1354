# The callback of a request's head costs 113 units: 2 for the count, 11 in each of ten rounds (the loop's own unit each time), 1 for the answer.
	.functype proxy_log (i32, i32, i32) -> (i32)
	.import_module proxy_log, env
	.import_name proxy_log, proxy_log

	.globl proxy_abi_version_0_2_0
	.type proxy_abi_version_0_2_0,@function
proxy_abi_version_0_2_0:
	.functype proxy_abi_version_0_2_0 () -> ()
	.export_name proxy_abi_version_0_2_0, proxy_abi_version_0_2_0
	end_function

	.globl proxy_on_request_headers
	.type proxy_on_request_headers,@function
proxy_on_request_headers:
	.functype proxy_on_request_headers (i32, i32, i32) -> (i32)
	.export_name proxy_on_request_headers, proxy_on_request_headers
	.local i32
	i32.const 10
	local.set 3
	loop
	i32.const 2
	i32.const text
	i32.const 1
	call proxy_log
	drop
	local.get 3
	i32.const 1
	i32.sub
	local.tee 3
	br_if 0
	end_loop
	i32.const 0
	end_function

	.type text,@object
	.section .rodata.text,"",@
text:
	.ascii "x"
	.size text, 1
