"""Requirements: what a policy has to keep, in the language of rules, and how often. Rules beside the policy judge it."""
