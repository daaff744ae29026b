// What a browser made of the planner's page, in one line. tests/command/browser puts this into a copy of the page,
// which it shows in a frame; the line is sent to the page around it.
"use strict";

// The colour of an element's text, and the one behind it: three numbers up to 255.
const numbers = colour => colour.match(/[\d.]+/g).map(Number);
const colour = element => numbers(getComputedStyle(element)[element instanceof SVGElement ? "fill" : "color"]);
const behind = element => {
    for (; element !== null; element = element.parentElement) {
        const background = numbers(getComputedStyle(element).backgroundColor);
        if (background.length === 3) return background; // a transparent one has a fourth number
    }
    return [255, 255, 255];
};

// The contrast of two colours, by WCAG 2: from 4.5 on, text is easy to read.
const luminance = colour => {
    const [red, green, blue] = colour.map(part => part / 255)
        .map(part => part <= 0.03928 ? part / 12.92 : ((part + 0.055) / 1.055) ** 2.4);
    return 0.2126 * red + 0.7152 * green + 0.0722 * blue;
};
const contrast = (one, other) => {
    const [dark, light] = [luminance(one), luminance(other)].sort((a, b) => a - b);
    return (light + 0.05) / (dark + 0.05);
};
const pale = () => [...document.body.querySelectorAll(":not(script)")]
    .filter(element => [...element.childNodes].some(node => node.nodeType === Node.TEXT_NODE && node.data.trim()))
    .filter(element => contrast(colour(element), behind(element)) < 4.5);

// How the bar of a row is: solid, up to below the red line; or solid and then striped, up to the line or past it, with
// the mark in words; or wrong.
const bar = row => {
    const box = name => row.querySelector(name)?.getBoundingClientRect();
    const [start, shown, lost, limit] = [".grid", ".shown", ".lost", ".limit"].map(box);
    const line = (limit.left + limit.right) / 2, end = shown?.right ?? start.left, marked = row.querySelector("strong");
    if (lost === undefined) return end <= line + 1 && marked === null ? "below" : "wrong";
    return Math.abs(end - lost.left) < 2 && lost.right >= line - 1 && marked !== null ? "past" : "wrong";
};
const bars = () => {
    const count = {below: 0, past: 0, wrong: 0};
    document.querySelectorAll("tbody tr, tfoot tr").forEach(row => count[bar(row)]++);
    return `${count.below} bars below the line, ${count.past} past it, ${count.wrong} wrong`;
};

const facts = () => [
    bars(),
    document.documentElement.scrollWidth > innerWidth ? `${document.documentElement.scrollWidth} wide` : "fits",
    `${[...document.querySelectorAll("tbody tr:first-child td")]
        .filter(cell => getComputedStyle(cell, "::before").content !== "none").length} labels`,
    `${pale().length} pale texts`,
].join("; ");

addEventListener("load", () => {
    const name = location.pathname.replace(/.*_|\.html/g, "");
    const scheme = matchMedia("(prefers-color-scheme: dark)").matches ? "dark" : "light";
    parent.postMessage(`${name} ${innerWidth} ${scheme}: ${facts()}`, "*");
});
