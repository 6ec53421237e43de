/* The report's stylesheet: light and dark by what the reader prefers, always light in print. Lit and dark elements
   differ in fill and edge, whatever the colours. */
#include "report_parts.h"

#include <stddef.h>

const char *const report_style[] = {
    ":root{color-scheme:light dark;"
    "--ink:#1c2126;--soft:#566069;--paper:#fff;--wash:#f3f5f7;--rule:#d5dbe0;--link:#0b57a4;"
    "--warn:#9a3412;--warn-wash:#fff3e8;"
    "--plate:#dfe3e7;--plate-edge:#8b959e;--screw:#b4bcc4;--glass:#e9f0e4;--glass-edge:#6c766a;"
    "--lit:#10150f;--unlit:#77856f;--lamp:#c8660a;--lamp-edge:#5e2f02;--hollow:#6b7680}",
    "@media screen and (prefers-color-scheme:dark){:root{"
    "--ink:#e4e8ec;--soft:#a3adb7;--paper:#15181c;--wash:#1e2328;--rule:#363d45;--link:#8ec3ff;"
    "--warn:#ffb47a;--warn-wash:#33241a;"
    "--plate:#2b3137;--plate-edge:#69737d;--screw:#454d55;--glass:#0d1210;--glass-edge:#55605a;"
    "--lit:#ffb84d;--unlit:#5c665f;--lamp:#ffb84d;--lamp-edge:#ffe0b0;--hollow:#8a949e}}",
    "*{box-sizing:border-box}",
    "body{margin:0 auto;padding:2rem 1.5rem 4rem;max-width:62rem;background:var(--paper);color:var(--ink);"
    "font:16px/1.55 system-ui,-apple-system,\"Segoe UI\",\"Liberation Sans\",Arial,sans-serif}",
    "h1,h2,h3{line-height:1.25;overflow-wrap:anywhere}",
    "h1{font-size:1.9rem;margin:.2rem 0 1.2rem}",
    "h2{font-size:1.35rem;margin:3rem 0 .8rem;padding-top:.9rem;border-top:2px solid var(--ink)}",
    "h3{font-size:1.05rem;margin:1.6rem 0 .6rem}",
    "p,ul,dl{margin:.6rem 0}",
    "small,.house,.note,.more,.left-out{color:var(--soft);font-size:.875rem}",
    "a{color:var(--link)}",
    "code,pre,.line{font-family:ui-monospace,\"DejaVu Sans Mono\",\"Liberation Mono\",Menlo,Consolas,monospace;"
    "font-size:.9em;overflow-wrap:anywhere}",
    "pre{padding:.8rem 1rem;background:var(--wash);border:1px solid var(--rule);border-radius:6px;"
    "white-space:pre-wrap}",
    "pre span{display:inline-block}",
    ".house{margin:0;letter-spacing:.06em;text-transform:uppercase;font-size:.75rem}",
    ".glance{display:flex;flex-wrap:wrap;gap:1px;background:var(--rule);border:1px solid var(--rule);border-radius:8px;"
    "overflow:hidden}",
    ".glance div{flex:1 1 8rem;background:var(--wash);padding:.7rem .9rem}",
    ".glance .file{flex-basis:15rem}",
    ".glance dt{color:var(--soft);font-size:.8rem}",
    ".glance dd{margin:0;font-weight:600;overflow-wrap:anywhere}",
    ".glance small{display:block;font-weight:400}",
    "nav ol{columns:2;padding-left:1.4rem;margin:1.2rem 0 0}",
    ".wide{overflow-x:auto}",
    "table{border-collapse:collapse;width:100%;font-variant-numeric:tabular-nums}",
    "th,td{padding:.4rem .6rem;text-align:left;vertical-align:top;border-bottom:1px solid var(--rule)}",
    "thead th{border-bottom:2px solid var(--soft);font-size:.85rem;color:var(--soft);vertical-align:bottom}",
    "tbody th{font-weight:inherit}",
    ".number{text-align:right}",
    ".readings{font-size:.9rem}",
    ".readings td{white-space:nowrap}",
    ".by-10 b{font-weight:400}",
    ".stand{border:1px solid var(--rule);border-radius:8px;padding:0 1.1rem 1rem;margin:1.1rem 0}",
    ".beside{display:flex;flex-wrap:wrap;gap:1rem 1.6rem;align-items:flex-start}",
    ".panel{flex:0 1 auto;max-width:100%}",
    ".words{flex:1 1 21rem;min-width:0}",
    ".digits,.level,.verdict,.refused{margin:.3rem 0 .5rem}",
    ".digits{color:var(--soft);font-size:.9rem}",
    ".level strong{font-size:1.5rem}",
    ".verdict{font-size:.95rem}",
    ".differs,.refused{border-left:4px solid var(--warn);background:var(--warn-wash);padding:.5rem .8rem}",
    ".differs strong{color:var(--warn)}",
    ".proved td:nth-child(n+2){width:31%}",
    ".proved td:nth-child(n+2) code{display:block;font-size:.8rem}",
    ".wiring,.listing{list-style:none;padding:0}",
    ".wiring{columns:8rem;column-gap:1.2rem;font-size:.9rem}",
    ".wiring b{display:inline-block;min-width:2.2rem;text-align:right;padding-right:.4rem}",
    ".listing{columns:17rem;column-gap:2rem;font-size:.9rem;line-height:1.5}",
    ".listing li{break-inside:avoid;white-space:nowrap;padding:0 .3rem}",
    ".listing li:target,.stand:target{outline:3px solid var(--link);outline-offset:1px}",
    ".fold{color:var(--soft)}",
    ".mark{border:1px solid currentColor;border-radius:4px;padding:0 .3rem;font-size:.75rem}",
    "svg{display:block;max-width:100%;height:auto}",
    ".plate{fill:var(--plate);stroke:var(--plate-edge);stroke-width:2}",
    ".screw circle{fill:var(--screw);stroke:var(--plate-edge)}",
    ".screw path{stroke:var(--plate-edge);stroke-width:1.5}",
    ".glass{fill:var(--glass);stroke:var(--glass-edge);stroke-width:2}",
    "svg text{fill:var(--soft);font-size:11px;text-anchor:middle;font-variant-numeric:tabular-nums}",
    ".lit polygon{fill:var(--lit);stroke:var(--lit);stroke-width:1}",
    ".dark polygon{fill:none;stroke:var(--unlit);stroke-width:1;stroke-dasharray:2 2}",
    ".lit circle{fill:var(--lamp);stroke:var(--lamp-edge);stroke-width:2}",
    ".rays{fill:none;stroke:var(--lamp-edge);stroke-width:2;stroke-linecap:round}",
    ".dark circle{fill:none;stroke:var(--hollow);stroke-width:1.2;stroke-dasharray:2.5 2}",
    ".xref th:first-child{width:11rem}",
    "@media screen and (max-width:32rem){body{padding:1.2rem 1rem 3rem}nav ol{columns:1}.stand{padding:0 .7rem .8rem}"
    "th,td{padding:.35rem .3rem}.xref th:first-child{width:7rem}}",
    "@page{size:A4;margin:16mm 15mm 18mm;@bottom-right{content:\"page \" counter(page) \" of \" counter(pages);"
    "font:8pt sans-serif}}",
    "@media print{html{font-size:12.5px}body{max-width:none;padding:0;font-size:1rem}nav{display:none}"
    "a{color:inherit;text-decoration:underline}h2{margin-top:1.8rem}h2,h3,thead{break-after:avoid}"
    ".stand,svg,tr,li,pre,.glance,.note{break-inside:avoid}svg{max-height:190mm}.wide{overflow:visible}"
    "thead{display:table-header-group}.listing{columns:3;font-size:.78rem}"
    ".proved td:nth-child(n+2) code{font-size:.74rem}#xref,#listing{break-before:page}"
    ":root{color-scheme:light;--wash:#fff;--warn-wash:#fff;--link:#000;"
    "--plate:#fff;--plate-edge:#555;--screw:#fff;--glass:#fff;--glass-edge:#333;"
    "--lit:#000;--unlit:#777;--lamp:#000;--lamp-edge:#000;--hollow:#555}}",
    NULL,
};
