// The path is to be replaced where the module has a home.
module rtnl.invalid/rtnlc

go 1.19
