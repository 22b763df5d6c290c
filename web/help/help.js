/** The pages of the guide: their texts are in them, and the script only keeps the visit and says whom to ask. */
import { $ } from "../dom.js";
import { showContact } from "../season.js";
import { startVisit } from "../visit.js";

document.documentElement.dataset.ready = "yes";
startVisit();
showContact($("contact"));
