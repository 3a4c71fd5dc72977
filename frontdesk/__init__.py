"""The front desk: reads what an office has, asks the proved library, and shows what it answers. It makes no figure of its own."""
