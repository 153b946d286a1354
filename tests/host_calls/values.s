# Where `proxy_on_configure` makes a call that hands bytes over, 28,010 values stand and one more for each byte of the plug-in's configuration: the
# two parameters, one of each `deep`, and the 4,001 of each of seven `wide`; the arguments of the call stand no more. The allocator has 4,746.
	.functype proxy_get_buffer_bytes (i32, i32, i32, i32, i32) -> (i32)
	.import_module proxy_get_buffer_bytes, env
	.import_name proxy_get_buffer_bytes, proxy_get_buffer_bytes

	.globl proxy_abi_version_0_2_1
	.type proxy_abi_version_0_2_1,@function
proxy_abi_version_0_2_1:
	.functype proxy_abi_version_0_2_1 () -> ()
	.export_name proxy_abi_version_0_2_1, proxy_abi_version_0_2_1
	end_function

	.globl malloc
	.type malloc,@function
malloc:
	.functype malloc (i32) -> (i32)
	.export_name malloc, malloc
	.rept 4745
	i32.const 0
	.endr
	.rept 4745
	drop
	.endr
	i32.const 4096
	end_function

	.type wide,@function
wide:
	.functype wide (i32) -> ()
	.rept 4000
	i32.const 0
	.endr
	local.get 0
	if
	local.get 0
	i32.const 1
	i32.sub
	call wide
	else
	i32.const 7
	i32.const 0
	i32.const 1
	i32.const 8
	i32.const 12
	call proxy_get_buffer_bytes
	drop
	end_if
	.rept 4000
	drop
	.endr
	end_function

	.type deep,@function
deep:
	.functype deep (i32) -> ()
	local.get 0
	if
	local.get 0
	i32.const 1
	i32.sub
	call deep
	else
	i32.const 6
	call wide
	end_if
	end_function

	.globl proxy_on_configure
	.type proxy_on_configure,@function
proxy_on_configure:
	.functype proxy_on_configure (i32, i32) -> (i32)
	.export_name proxy_on_configure, proxy_on_configure
	local.get 1
	call deep
	i32.const 1
	end_function
