"""The package vabgrot, module by module."""
