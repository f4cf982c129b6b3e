map wasm.pk Module wasm.wasm
