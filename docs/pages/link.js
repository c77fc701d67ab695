// The state of the page in its address: a lesson and a step, or a scheme and a script.
//
//     #lesson=shown_migration&step=3&follow=1
//     #scheme=7&script=start+0+1+130+1;tick+64&step=2
"use strict";

const NUMBERS = {slots: "--slots", first: "--first-tick", clients: "--clients", capacity: "--capacity"};
const MAX_LINK = 6000; // bytes of a script that is written into the address

function schemeNumber(scheme) { return Object.keys(SCHEMES).find((number) => SCHEMES[number] === scheme); }

// Letters, digits and signs that an address has as they are; a space is a plus, and a line feed a semicolon.
function inLink(script) { return encodeURIComponent(script.replace(/\n$/, "")).replaceAll("%20", "+").replaceAll("%0A", ";"); }

function linkOf(play, step, followed, isLesson, isCompared) {
  const parts = [];
  if (isLesson) parts.push(`lesson=${play.name}`);
  else {
    parts.push(`scheme=${schemeNumber(play.scheme.name)}`);
    for (const [name, option] of Object.entries(NUMBERS)) {
      const value = play.scheme.option(option, null);
      if (value !== null) parts.push(`${name}=${value}`);
    }
    if (play.script.length <= MAX_LINK) parts.push(`script=${inLink(play.script)}`);
  }
  parts.push(`step=${step}`);
  if (followed) parts.push(`follow=${followed}`);
  if (isCompared) parts.push("compare");
  return `#${parts.join("&")}`;
}

// The lesson, the step and the timer to follow that an address names. What it doesn't name is undefined.
function readLink(hash) {
  const words = new URLSearchParams(hash.slice(1));
  const number = (name) => (/^\d{1,19}$/.test(words.get(name) ?? "") ? words.get(name) : undefined);
  const found = {step: number("step") && Number(number("step")), followed: number("follow"), isCompared: words.has("compare")};
  const name = words.get("lesson") ?? hash.slice(1);
  const lesson = LESSONS.find((one) => one.name === name);
  if (lesson || !words.has("script")) return {lesson: lesson ?? LESSONS[0], ...found};
  const options = ["--scheme", SCHEMES[words.get("scheme")] ?? "hier"];
  for (const [of, option] of Object.entries(NUMBERS))
    if (number(of)) options.push(option, number(of));
  const script = words.get("script").replaceAll(";", "\n").replace(/[^\0-\xff]/g, "?");
  return {lesson: {title: "Your script", options, script: script && `${script}\n`}, ...found};
}
