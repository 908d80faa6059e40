"""The parts of tools/serve_test: what is tried of `dynamo serve` and of its client for Python."""
