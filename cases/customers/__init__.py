"""Finance programs and tools that people have, each as a customer of a bank that is served."""
