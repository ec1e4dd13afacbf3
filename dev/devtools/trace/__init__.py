"""From a promise of the documents to its clauses, definitions, laws, edits and cases."""
