"""What a surveyor uses beside the program sgm, and the program as a function: survey."""

from sgm_tools.programs import Failed
from sgm_tools.surveys import Survey, survey

__all__ = ["Failed", "Survey", "survey"]
