// What runs in the worker: runs.js and what it needs, and this line.

import { serveJobs } from './runs.js';

serveJobs(self);
