"""A canonical module as an output of Bazel, and a test that a module is canonical.

    load(":wcanon.bzl", "canonical_module", "canonical_test")
    canonical_module(name = "module", src = "in.wasm")
    canonical_test(name = "module_test", src = "in.wasm")

The program is a label of the workspace, so that remote execution sends it along.
"""

def _canonical_module(ctx):
    out = ctx.actions.declare_file(ctx.label.name + ".canonical.wasm")
    ctx.actions.run(
        executable = ctx.executable.wcanon,
        arguments = ["binary", ctx.file.src.path, "-o", out.path],
        inputs = [ctx.file.src],
        outputs = [out],
        mnemonic = "Canonical",
    )
    return [DefaultInfo(files = depset([out]))]

def _canonical_test(ctx):
    script = ctx.actions.declare_file(ctx.label.name)
    words = [ctx.executable.wcanon.short_path, "canonical", ctx.file.src.short_path]
    ctx.actions.write(script, "#!/bin/sh\nexec ./%s %s %s\n" % tuple(words), is_executable = True)
    files = ctx.runfiles(files = [ctx.executable.wcanon, ctx.file.src])
    return [DefaultInfo(executable = script, runfiles = files)]

_ATTRIBUTES = {
    "src": attr.label(mandatory = True, allow_single_file = True),
    "wcanon": attr.label(default = "//tools:wcanon", allow_single_file = True, executable = True, cfg = "exec"),
}

canonical_module = rule(implementation = _canonical_module, attrs = _ATTRIBUTES)

canonical_test = rule(implementation = _canonical_test, attrs = _ATTRIBUTES, test = True)
