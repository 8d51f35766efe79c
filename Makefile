# The two commands of the README. They need `rt` on the path and nothing else.
.PHONY: play test

# Prove and build cueplay, and play the demonstration scene.
play:
	@program=$$(tools/build_cueplay) && cd demo && "$$program"

# All proofs, must-fail edits and tests. What passed on this machine and has not changed is not proved again.
test:
	.ci/run
