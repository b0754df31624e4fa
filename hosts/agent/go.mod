module cedar-agent

go 1.19

require bobbinjade v0.0.0

replace bobbinjade => ../../bindings/go
