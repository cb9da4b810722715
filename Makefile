# The two commands of the README. Everything else is `rt`, `tools/build` and `cargo`.
.PHONY: rehearse test

rehearse:
	tools/build rehearse
	target/bin/rehearse < crates/rehearse/stdin

test:
	.ci/run
