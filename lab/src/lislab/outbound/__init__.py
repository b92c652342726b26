"""Exports and deliveries from a store, as records, CSV, HL7 and FHIR."""
