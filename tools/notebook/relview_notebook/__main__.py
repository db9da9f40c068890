"""Starts the kernel: python3 -m relview_notebook -f FILE, as kernel.json says it."""
from ipykernel.kernelapp import IPKernelApp

from .kernel import RelviewKernel

IPKernelApp.launch_instance(kernel_class=RelviewKernel)
