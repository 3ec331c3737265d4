"""The inputs of checks/fuzz and what becomes of them: mutations, scripts, a running cluster, database files."""
