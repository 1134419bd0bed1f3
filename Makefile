test:
	.ci/run

.PHONY: test
