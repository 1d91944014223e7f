run:
	cd crates/yophazidu && rt run

test:
	.ci/run

.PHONY: run test
