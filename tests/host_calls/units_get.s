# The callback of a request's head costs 37 units: three host calls that hand bytes over, 7 each and 5 of the allocator, and 1 for the answer.
# Each callback of the start costs 36.
	.functype proxy_get_header_map_value (i32, i32, i32, i32, i32) -> (i32)
	.import_module proxy_get_header_map_value, env
	.import_name proxy_get_header_map_value, proxy_get_header_map_value
	.globaltype next, i32
next:

	.globl proxy_abi_version_0_2_1
	.type proxy_abi_version_0_2_1,@function
proxy_abi_version_0_2_1:
	.functype proxy_abi_version_0_2_1 () -> ()
	.export_name proxy_abi_version_0_2_1, proxy_abi_version_0_2_1
	end_function

	.globl malloc
	.type malloc,@function
malloc:
	.functype malloc (i32) -> (i32)
	.export_name malloc, malloc
	global.get next
	i32.const 4096
	i32.add
	global.get next
	drop
	end_function

	.globl _initialize
	.type _initialize,@function
_initialize:
	.functype _initialize () -> ()
	.export_name _initialize, _initialize
	.rept 36
	nop
	.endr
	end_function

	.globl proxy_on_vm_start
	.type proxy_on_vm_start,@function
proxy_on_vm_start:
	.functype proxy_on_vm_start (i32, i32) -> (i32)
	.export_name proxy_on_vm_start, proxy_on_vm_start
	.rept 35
	nop
	.endr
	i32.const 1
	end_function

	.globl proxy_on_configure
	.type proxy_on_configure,@function
proxy_on_configure:
	.functype proxy_on_configure (i32, i32) -> (i32)
	.export_name proxy_on_configure, proxy_on_configure
	.rept 35
	nop
	.endr
	i32.const 1
	end_function

	.globl proxy_on_request_headers
	.type proxy_on_request_headers,@function
proxy_on_request_headers:
	.functype proxy_on_request_headers (i32, i32, i32) -> (i32)
	.export_name proxy_on_request_headers, proxy_on_request_headers
	.rept 3
	i32.const 0
	i32.const path
	i32.const 5
	i32.const 8
	i32.const 12
	call proxy_get_header_map_value
	drop
	.endr
	i32.const 0
	end_function

	.type path,@object
	.section .rodata.path,"",@
path:
	.ascii ":path"
	.size path, 5
